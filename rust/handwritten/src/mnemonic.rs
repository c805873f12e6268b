//! The names of the rows, and the form of the operands after each: one table for the lister and the assembler.

use crate::opcode::{IMMEDIATE, JUMP, OPCODES, source};

/// What stands after a name. In the comments a small letter is a register's number and h a hexadecimal digit.
#[derive(Clone, Copy, PartialEq, Eq)]
pub(crate) enum Form {
    /// Nothing.
    Alone,
    /// Nothing, or ` 2` where bit 0 is set.
    Again,
    /// ` Rd`.
    Register,
    /// ` Rd`, of R0 to R3.
    LowRegister,
    /// ` Rd` or ` Rd,2`, of R0 to R3.
    Shift,
    /// ` Rs,Rd`.
    Registers,
    /// ` +$hhhh` or ` -$hhhh`.
    Branch,
    /// ` n,+$hhhh` or ` n,-$hhhh`, n an external input's number.
    External,
    /// ` Rd,$hhhh`.
    StoreDirect,
    /// ` Rd,Rs`, s a pointer.
    StorePointer,
    /// ` Rd,#$hhhh`.
    StoreImmediate,
    /// ` $hhhh,Rd`.
    ReadDirect,
    /// ` Rs,Rd`, s a pointer.
    ReadPointer,
    /// ` #$hhhh,Rd`.
    ReadImmediate,
    /// ` $hhhh`.
    Jump,
    /// ` Rr,$hhhh`, r the return register.
    Call,
    /// ` $0004`.
    Decle,
}

impl Form {
    /// The opcode's bits that the operands choose.
    const fn free_bits(self) -> u16 {
        match self {
            Form::Alone | Form::Jump | Form::Call | Form::Decle => 0,
            Form::Again => 0x01,
            Form::LowRegister => 0x03,
            Form::Register | Form::Shift => 0x07,
            Form::StoreDirect | Form::ReadDirect | Form::StoreImmediate | Form::ReadImmediate => 0x07,
            Form::Registers | Form::StorePointer | Form::ReadPointer => 0x3F,
            Form::Branch => 0x20,
            Form::External => 0x2F,
        }
    }

    const fn allows(self, w: u16) -> bool {
        match self {
            Form::StorePointer | Form::ReadPointer => source(w) != 0 && source(w) != IMMEDIATE,
            _ => true,
        }
    }
}

/// A name of at most eight bytes, the others 0: it is copied and compared as one machine word.
#[derive(Clone, Copy)]
pub(crate) struct Name {
    pub bytes: [u8; 8],
    pub length: usize,
}

impl Name {
    const fn new(text: &str) -> Name {
        let mut bytes = [0; 8];
        let mut n = 0;
        while n < text.len() {
            bytes[n] = text.as_bytes()[n];
            n += 1;
        }
        Name { bytes, length: text.len() }
    }

    const fn key(self) -> u64 {
        u64::from_be_bytes(self.bytes)
    }
}

#[derive(Clone, Copy)]
pub(crate) struct Mnemonic {
    pub name: Name,
    pub form: Form,
    /// The opcode with every free bit clear.
    pub opcode: u16,
}

const fn named(name: &str, form: Form, opcode: u16) -> Mnemonic {
    Mnemonic { name: Name::new(name), form, opcode }
}

const COUNT: usize = 75;

/// Where the jumps' names start, J JE JD and then JSR JSRE JSRD, each by its interrupt bits; and where DECLE stands.
pub(crate) const JUMPS: usize = 68;
pub(crate) const CALLS: usize = JUMPS + 3;
pub(crate) const DECLE: usize = CALLS + 3;

pub(crate) static MNEMONICS: [Mnemonic; COUNT] = TABLE;

const TABLE: [Mnemonic; COUNT] = [
    named("HLT", Form::Alone, 0x000),
    named("SDBD", Form::Alone, 0x001),
    named("EIS", Form::Alone, 0x002),
    named("DIS", Form::Alone, 0x003),
    named("TCI", Form::Alone, 0x005),
    named("CLRC", Form::Alone, 0x006),
    named("SETC", Form::Alone, 0x007),
    named("INCR", Form::Register, 0x008),
    named("DECR", Form::Register, 0x010),
    named("COMR", Form::Register, 0x018),
    named("NEGR", Form::Register, 0x020),
    named("ADCR", Form::Register, 0x028),
    named("GSWD", Form::LowRegister, 0x030),
    named("NOP", Form::Again, 0x034),
    named("SIN", Form::Again, 0x036),
    named("RSWD", Form::Register, 0x038),
    named("SWAP", Form::Shift, 0x040),
    named("SLL", Form::Shift, 0x048),
    named("RLC", Form::Shift, 0x050),
    named("SLLC", Form::Shift, 0x058),
    named("SLR", Form::Shift, 0x060),
    named("SAR", Form::Shift, 0x068),
    named("RRC", Form::Shift, 0x070),
    named("SARC", Form::Shift, 0x078),
    named("MOVR", Form::Registers, 0x080),
    named("ADDR", Form::Registers, 0x0C0),
    named("SUBR", Form::Registers, 0x100),
    named("CMPR", Form::Registers, 0x140),
    named("ANDR", Form::Registers, 0x180),
    named("XORR", Form::Registers, 0x1C0),
    named("B", Form::Branch, 0x200),
    named("BC", Form::Branch, 0x201),
    named("BOV", Form::Branch, 0x202),
    named("BPL", Form::Branch, 0x203),
    named("BEQ", Form::Branch, 0x204),
    named("BLT", Form::Branch, 0x205),
    named("BLE", Form::Branch, 0x206),
    named("BUSC", Form::Branch, 0x207),
    named("NOPP", Form::Branch, 0x208),
    named("BNC", Form::Branch, 0x209),
    named("BNOV", Form::Branch, 0x20A),
    named("BMI", Form::Branch, 0x20B),
    named("BNEQ", Form::Branch, 0x20C),
    named("BGE", Form::Branch, 0x20D),
    named("BGT", Form::Branch, 0x20E),
    named("BESC", Form::Branch, 0x20F),
    named("BEXT", Form::External, 0x210),
    named("MVO", Form::StoreDirect, 0x240),
    named("MVO@", Form::StorePointer, 0x240),
    named("MVOI", Form::StoreImmediate, 0x278),
    named("MVI", Form::ReadDirect, 0x280),
    named("MVI@", Form::ReadPointer, 0x280),
    named("MVII", Form::ReadImmediate, 0x2B8),
    named("ADD", Form::ReadDirect, 0x2C0),
    named("ADD@", Form::ReadPointer, 0x2C0),
    named("ADDI", Form::ReadImmediate, 0x2F8),
    named("SUB", Form::ReadDirect, 0x300),
    named("SUB@", Form::ReadPointer, 0x300),
    named("SUBI", Form::ReadImmediate, 0x338),
    named("CMP", Form::ReadDirect, 0x340),
    named("CMP@", Form::ReadPointer, 0x340),
    named("CMPI", Form::ReadImmediate, 0x378),
    named("AND", Form::ReadDirect, 0x380),
    named("AND@", Form::ReadPointer, 0x380),
    named("ANDI", Form::ReadImmediate, 0x3B8),
    named("XOR", Form::ReadDirect, 0x3C0),
    named("XOR@", Form::ReadPointer, 0x3C0),
    named("XORI", Form::ReadImmediate, 0x3F8),
    named("J", Form::Jump, JUMP),
    named("JE", Form::Jump, JUMP),
    named("JD", Form::Jump, JUMP),
    named("JSR", Form::Call, JUMP),
    named("JSRE", Form::Call, JUMP),
    named("JSRD", Form::Call, JUMP),
    named("DECLE", Form::Decle, JUMP),
];

/// The place of each opcode's mnemonic; a jump's is chosen by its second word.
pub(crate) static PLACE_OF: [u8; OPCODES] = places();

const fn places() -> [u8; OPCODES] {
    let mut places = [0; OPCODES];
    let mut n = 0;
    while n < COUNT {
        let Mnemonic { form, opcode, .. } = TABLE[n];
        let mut w = opcode;
        while w <= opcode | form.free_bits() {
            if w & !form.free_bits() == opcode && form.allows(w) {
                places[w as usize] = n as u8;
            }
            w += 1;
        }
        n += 1;
    }
    places
}

/// The names in rising order, each with its place.
static BY_NAME: [(u64, u8); COUNT] = sorted();

const fn sorted() -> [(u64, u8); COUNT] {
    let mut sorted = [(0, 0); COUNT];
    let mut n = 0;
    while n < COUNT {
        let key = TABLE[n].name.key();
        let mut at = n;
        while at > 0 && sorted[at - 1].0 > key {
            sorted[at] = sorted[at - 1];
            at -= 1;
        }
        sorted[at] = (key, n as u8);
        n += 1;
    }
    sorted
}

/// The place of the mnemonic with this name. The length tells a name from one with bytes of 0 after it.
#[inline]
pub(crate) fn place_of_name(name: Name) -> Option<usize> {
    let found = BY_NAME.binary_search_by_key(&name.key(), |entry| entry.0).ok()?;
    let place = usize::from(BY_NAME[found].1);
    (MNEMONICS[place].name.length == name.length).then_some(place)
}
