; Document 01's example image: one instruction, at $0010.
NOP
