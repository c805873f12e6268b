//! The one-line assembler, which takes exactly the lister's lines.

use crate::hex::word_of;
use crate::mnemonic::{CALLS, Form, JUMPS, MNEMONICS, Name, place_of_name};
use crate::opcode::{JUMP, NO_RETURN};
use cp1610::{Assembled, Refusal};

/// The words of a line, with D as it stands before it.
///
/// # Errors
///
/// Refused by 6.
pub fn assemble(line: &[u8], d: bool) -> Result<Assembled, Refusal> {
    parse(line, d).ok_or(Refusal::NotAListingLine)
}

fn parse(line: &[u8], d: bool) -> Option<Assembled> {
    let (name, operands) = split_name(line)?;
    let place = place_of_name(name)?;
    let mnemonic = &MNEMONICS[place];
    let opcode = mnemonic.opcode;
    match (mnemonic.form, operands) {
        (Form::Alone | Form::Again, []) => one(opcode),
        (Form::Again, b" 2") => one(opcode + 1),
        (Form::Register, [b' ', b'R', d]) => one(opcode | register(*d)?),
        (Form::LowRegister | Form::Shift, [b' ', b'R', d]) => one(opcode | low_register(*d)?),
        (Form::Shift, [b' ', b'R', d, b',', b'2']) => one(opcode | 4 | low_register(*d)?),
        (Form::Registers, [b' ', b'R', s, b',', b'R', d]) => one(opcode | register(*s)? << 3 | register(*d)?),
        (Form::ReadPointer, [b' ', b'R', s, b',', b'R', d]) => one(opcode | pointer(*s)? << 3 | register(*d)?),
        (Form::StorePointer, [b' ', b'R', d, b',', b'R', s]) => one(opcode | pointer(*s)? << 3 | register(*d)?),
        (Form::Branch, [b' ', sign, b'$', digits @ ..]) => two(opcode | backward(*sign)?, hex(digits)?),
        (Form::External, [b' ', n, b',', sign, b'$', digits @ ..]) => {
            two(opcode | backward(*sign)? | digit_below(*n, 10)?, hex(digits)?)
        }
        (Form::External, [b' ', b'1', n, b',', sign, b'$', digits @ ..]) => {
            two(opcode | backward(*sign)? | (10 + digit_below(*n, 6)?), hex(digits)?)
        }
        (Form::StoreDirect, [b' ', b'R', d, b',', b'$', digits @ ..])
        | (Form::StoreImmediate, [b' ', b'R', d, b',', b'#', b'$', digits @ ..]) => {
            two(opcode | register(*d)?, hex(digits)?)
        }
        (Form::ReadDirect, [b' ', b'$', digits @ .., b',', b'R', d]) => two(opcode | register(*d)?, hex(digits)?),
        (Form::ReadImmediate, [b' ', b'#', b'$', digits @ .., b',', b'R', n]) => {
            immediate(opcode | register(*n)?, hex(digits)?, d)
        }
        (Form::Jump, [b' ', b'$', digits @ ..]) => jump(NO_RETURN, place - JUMPS, hex(digits)?),
        (Form::Call, [b' ', b'R', r, b',', b'$', digits @ ..]) => {
            jump(return_register(*r)?, place - CALLS, hex(digits)?)
        }
        (Form::Decle, b" $0004") => one(opcode),
        _ => None,
    }
}

/// The bytes before the first space, and those from it on.
#[inline(always)]
fn split_name(line: &[u8]) -> Option<(Name, &[u8])> {
    let mut bytes = [0; 8];
    for (length, &byte) in line.iter().enumerate() {
        if byte == b' ' {
            return Some((Name { bytes, length }, &line[length..]));
        }
        *bytes.get_mut(length)? = byte;
    }
    Some((Name { bytes, length: line.len() }, &[]))
}

fn one(opcode: u16) -> Option<Assembled> {
    Some(Assembled::new([opcode]))
}

fn two(opcode: u16, operand: u16) -> Option<Assembled> {
    Some(Assembled::new([opcode, operand]))
}

fn three(opcode: u16, second: u16, third: u16) -> Option<Assembled> {
    Some(Assembled::new([opcode, second, third]))
}

/// Under D, "the two words of a read row's immediate below 256".
fn immediate(opcode: u16, value: u16, d: bool) -> Option<Assembled> {
    if d { three(opcode, value & 0xFF, value >> 8) } else { two(opcode, value) }
}

fn jump(return_field: u16, interrupt_bits: usize, target: u16) -> Option<Assembled> {
    let second = return_field << 8 | target >> 10 << 2 | interrupt_bits as u16;
    three(JUMP, second, target & 0x3FF)
}

/// Bit 5 of a branch.
fn backward(sign: u8) -> Option<u16> {
    match sign {
        b'+' => Some(0),
        b'-' => Some(0x20),
        _ => None,
    }
}

fn digit_below(byte: u8, end: u8) -> Option<u16> {
    let n = byte.wrapping_sub(b'0');
    (n < end).then_some(n.into())
}

fn register(byte: u8) -> Option<u16> {
    digit_below(byte, 8)
}

fn low_register(byte: u8) -> Option<u16> {
    digit_below(byte, 4)
}

/// R1 to R6.
fn pointer(byte: u8) -> Option<u16> {
    digit_below(byte, 7).filter(|n| *n != 0)
}

/// The field of R4, R5 or R6.
fn return_register(byte: u8) -> Option<u16> {
    digit_below(byte, 7)?.checked_sub(4)
}

/// Four digits and nothing else.
#[inline(always)]
fn hex(digits: &[u8]) -> Option<u16> {
    word_of(digits.try_into().ok()?)
}
