; A picture from a table, as a cartridge at $5000 has it: a frame loop, the table behind it, and two routines. It shows what the set of
; reached addresses is for. The meter of all addresses takes the table for code, in which it finds no place where a request is heard, and
; names an operand as the start of the longest wait; the meter of reached addresses names a start in the code, and nothing over the limit.
;
; Each line is one that the kit's assembler takes; what follows a semicolon is a remark. README.md says how the image is made.

; the stack, and then the picture once a frame
; $5000 start
MVII #$02F1,R6
; $5002 frame
JSR R5,$5014        ; show
B -$0004            ; frame

; the picture's words, and a 0 behind them. No path leads here; read as instructions they are shifts and stores, which are not heard
; $5007 table
MVO@ R0,R4          ; $0260
MVO@ R1,R5          ; $0269
SLL R0,2            ; $004C
SDBD                ; $0001
MVO@ R2,R6          ; $0272
SWAP R3             ; $0043
MVO@ R0,R5          ; $0268
MVO@ R3,R4          ; $0263
RLC R1,2            ; $0055
MVO@ R1,R4          ; $0261
MVO@ R2,R5          ; $026A
SLLC R2             ; $005A
HLT                 ; $0000

; each word of the table, with its colour's bits turned over and its bytes exchanged, to the picture's registers
; $5014 show
MVO@ R5,R6
JSR R5,$502A        ; border
SDBD
MVII #$5007,R4      ; table
MVII #$0000,R5
; $501E show1
MVI@ R4,R0
CMPI #$0000,R0
BEQ +$0006          ; show2
XORI #$0272,R0      ; whose operand, read as an instruction, is MVO@ R2,R6
SWAP R0
MVO@ R0,R5
B -$000A            ; show1
; $5029 show2
MVI@ R6,R7

; the border's colour changes with each frame
; $502A border
MVI $0030,R1
INCR R1
MVO R1,$0030
MOVR R5,R7
