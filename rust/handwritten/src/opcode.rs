//! What an opcode alone says: its fields, and its row's words, cycles and "heard" mark.

use crate::memory::Words;

/// "Opcode = word modulo 1024".
pub(crate) const OPCODES: usize = 1_024;

pub(crate) const HLT: u16 = 0x000;
pub(crate) const SDBD: u16 = 0x001;
pub(crate) const EIS: u16 = 0x002;
pub(crate) const DIS: u16 = 0x003;
pub(crate) const JUMP: u16 = 0x004;
pub(crate) const CLRC: u16 = 0x006;
pub(crate) const SETC: u16 = 0x007;

/// The addressing modes that s names in a memory row; 1 to 5 go through that register.
pub(crate) const DIRECT: usize = 0;
pub(crate) const STACK: usize = 6;
pub(crate) const IMMEDIATE: usize = 7;

/// The register that is the stack's pointer, and the one that is the program's.
pub(crate) const R6: usize = 6;
pub(crate) const R7: usize = 7;

/// The cycles of a branch that is not taken, NOPP's among them.
pub(crate) const NOT_TAKEN: u8 = 7;

/// What the table of rows says of an instruction.
#[derive(Clone, Copy)]
pub(crate) struct Row {
    pub words: u8,
    pub cycles: u8,
    /// Whether a request is heard after it.
    pub heard: bool,
    /// Whether the machine is halted after it.
    pub halts: bool,
}

const fn heard(words: u8, cycles: u8) -> Row {
    Row { words, cycles, heard: true, halts: false }
}

const fn unheard(words: u8, cycles: u8) -> Row {
    Row { words, cycles, heard: false, halts: false }
}

#[inline(always)]
pub(crate) fn opcode_at(words: Words, at: u16) -> u16 {
    words.peek(at) % OPCODES as u16
}

pub(crate) const fn source(w: u16) -> usize {
    (w >> 3 & 7) as usize
}

pub(crate) const fn destination(w: u16) -> usize {
    (w & 7) as usize
}

pub(crate) const fn bit(n: u32, word: u16) -> bool {
    word >> n & 1 != 0
}

/// 280 to 3FF: MVI ADD SUB CMP AND XOR.
pub(crate) const fn is_read(w: u16) -> bool {
    w >= 0x280
}

/// 208 and 228. With bit 4 set, bit 3 belongs to an external input's number.
pub(crate) const fn is_nopp(w: u16) -> bool {
    w & 0x1F == 0x08
}

/// "Bit 5 clear: target = opcode address + 2 + displacement. Set: address + 1 - displacement".
#[inline(always)]
pub(crate) fn branch_target(words: Words, at: u16, w: u16) -> u16 {
    let second = at.wrapping_add(1);
    let displacement = words.peek(second);
    if bit(5, w) { second.wrapping_sub(displacement) } else { second.wrapping_add(1).wrapping_add(displacement) }
}

/// What a jump's second and third word say.
#[derive(Clone, Copy)]
pub(crate) struct Jump {
    /// "bits 9-8 return register R4, R5, R6 or none", which is `NO_RETURN`.
    pub return_field: u16,
    /// "bits 1-0: 0 none, 1 sets I, 2 clears I, 3 unspecified"
    pub bits: u16,
    pub target: u16,
}

/// The return field of a jump that leaves no return address.
pub(crate) const NO_RETURN: u16 = 3;

/// The bits of a jump that is unspecified.
pub(crate) const UNSPECIFIED: u16 = 3;

#[inline(always)]
pub(crate) fn jump_at(words: Words, at: u16) -> Jump {
    let (second, third) = (words.peek(at.wrapping_add(1)), words.peek(at.wrapping_add(2)));
    Jump { return_field: second >> 8 & 3, bits: second & 3, target: (second & 0xFC) << 8 | third & 0x3FF }
}

/// The row of an opcode with D as it stands; a branch as taken.
pub(crate) const fn row(w: u16, d: bool) -> Row {
    match w {
        HLT => Row { halts: true, ..unheard(1, 4) },
        JUMP => heard(3, 12),
        0x001..=0x007 => unheard(1, 4),
        0x008..=0x03F | 0x0C0..=0x1FF => heard(1, 6),
        0x040..=0x07F => unheard(1, if bit(2, w) { 8 } else { 6 }),
        0x080..=0x0BF => heard(1, if destination(w) < R6 { 6 } else { 7 }),
        0x200..=0x23F => heard(2, if is_nopp(w) { NOT_TAKEN } else { 9 }),
        0x240..=0x27F => match source(w) {
            DIRECT => unheard(2, 11),
            IMMEDIATE => unheard(2, 9),
            _ => unheard(1, 9),
        },
        _ => match (source(w), d) {
            (DIRECT, _) => heard(2, 10),
            (STACK, _) => heard(1, 11),
            (IMMEDIATE, false) => heard(2, 8),
            (IMMEDIATE, true) => heard(3, 10),
            (_, false) => heard(1, 8),
            (_, true) => heard(1, 10),
        },
    }
}

/// The table of what a `const fn` says of each opcode with D as it stands, for where the opcode is not known while compiling.
macro_rules! by_opcode {
    ($says:ident, $d:literal) => {{
        let mut table = [$says(0, $d); OPCODES];
        let mut w = 1;
        while w < OPCODES {
            table[w] = $says(w as u16, $d);
            w += 1;
        }
        table
    }};
}
pub(crate) use by_opcode;

/// The rows with D clear, and with D set.
static ROWS: [[Row; OPCODES]; 2] = [by_opcode!(row, false), by_opcode!(row, true)];

#[inline(always)]
pub(crate) fn row_of(w: u16, d: bool) -> Row {
    ROWS[usize::from(d)][usize::from(w)]
}

/// The two unspecified forms: a jump whose second word, which alone is read, ends in bits 3, and a stack read under D.
#[inline(always)]
pub(crate) fn is_unspecified(words: Words, at: u16, w: u16, d: bool) -> bool {
    if w == JUMP { words.peek(at.wrapping_add(1)) & 3 == UNSPECIFIED } else { d && is_stack_read(w) }
}

/// A read through R6, which D makes unspecified.
pub(crate) const fn is_stack_read(w: u16) -> bool {
    is_read(w) && source(w) == STACK
}
