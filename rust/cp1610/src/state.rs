//! The state of a machine as words, the way the C interface has it.

/// How many words a state has: R0 to R7, then the marks.
pub const STATE_WORDS: usize = 18;

/// R0 to R7 and then the marks in [`Mark`]'s order, in which anything but 0 counts as set.
pub type StateWords = [u16; STATE_WORDS];

/// A register, by its place among the state's words.
#[derive(Clone, Copy, Debug, PartialEq, Eq, Hash)]
pub enum Register {
    /// A register that shifts take.
    R0 = 0,
    /// A pointer, which shifts take too.
    R1 = 1,
    /// A pointer, which shifts take too.
    R2 = 2,
    /// A pointer, which shifts take too.
    R3 = 3,
    /// A pointer that moves up after use.
    R4 = 4,
    /// A pointer that moves up after use; a call leaves the return address here, in R4 or in R6.
    R5 = 5,
    /// The stack's pointer.
    R6 = 6,
    /// The program's pointer: the address of the next instruction.
    R7 = 7,
}

/// What a state has beside its registers, by its place among the state's words.
#[derive(Clone, Copy, Debug, PartialEq, Eq, Hash)]
#[non_exhaustive]
pub enum Mark {
    /// The sign flag.
    S = 8,
    /// The zero flag.
    Z = 9,
    /// The overflow flag.
    O = 10,
    /// The carry flag.
    C = 11,
    /// Whether interrupts are enabled.
    I = 12,
    /// Whether the next read takes two bytes from two words.
    D = 13,
    /// Whether the machine is halted.
    Halted = 14,
    /// Whether a request is heard at the next step.
    Ready = 15,
    /// The previous INTRM level, set for high.
    Level = 16,
    /// Whether an interrupt is pending.
    Pending = 17,
}
