//! The lister: the line of the instruction at an address.

use crate::board::Board;
use crate::hex::digits_of;
use crate::memory::Words;
use crate::mnemonic::{CALLS, DECLE, Form, JUMPS, MNEMONICS, Name, PLACE_OF};
use crate::opcode::{JUMP, Jump, NO_RETURN, SDBD, UNSPECIFIED, bit, destination, jump_at, opcode_at, row_of, source};
use cp1610::{Listed, Refusal, TEXT_ROOM};

/// Puts the line of the instruction at `address` into `text`, with D as it stands there.
///
/// # Errors
///
/// Refused by 1, 14 and 5, in this order.
pub fn list(memory: &[u16], board: &Board, address: u16, d: bool, text: &mut [u8]) -> Result<Listed, Refusal> {
    let memory = Words::new(memory, board)?;
    if text.len() < TEXT_ROOM {
        return Err(Refusal::TextRoomTooSmall);
    }
    let w = opcode_at(memory, address);
    let mut line = Line::new();
    let words = if w == JUMP { line.jump(memory, address) } else { line.instruction(memory, address, w, d) };
    text[..line.length].copy_from_slice(&line.text[..line.length]);
    Ok(Listed { length: line.length, words: words.into(), next_d: w == SDBD })
}

/// A line in the making.
struct Line {
    text: [u8; TEXT_ROOM],
    length: usize,
}

impl Line {
    fn new() -> Line {
        Line { text: [0; TEXT_ROOM], length: 0 }
    }

    /// Makes the line of a jump, and answers how many words it has. With bits 3 it is no jump but a word by itself.
    fn jump(&mut self, memory: Words, at: u16) -> u8 {
        let Jump { return_field, bits, target } = jump_at(memory, at);
        if bits == UNSPECIFIED {
            self.name(MNEMONICS[DECLE].name).put(*b" $").hex(JUMP);
            return 1;
        }
        let bits = usize::from(bits);
        match return_field {
            NO_RETURN => self.name(MNEMONICS[JUMPS + bits].name).put(*b" $").hex(target),
            n => self.name(MNEMONICS[CALLS + bits].name).register(4 + usize::from(n)).put(*b",$").hex(target),
        };
        row_of(JUMP, false).words
    }

    /// Makes the line of any other opcode, and answers how many words it has.
    fn instruction(&mut self, memory: Words, at: u16, w: u16, d: bool) -> u8 {
        let mnemonic = &MNEMONICS[usize::from(PLACE_OF[usize::from(w)])];
        let operand = || memory.peek(at.wrapping_add(1));
        let sign = if bit(5, w) { b'-' } else { b'+' };
        let (s, r) = (source(w), destination(w));
        self.name(mnemonic.name);
        match mnemonic.form {
            Form::Again if bit(0, w) => self.put(*b" 2"),
            Form::Alone | Form::Again => self,
            Form::Register | Form::LowRegister => self.register(r),
            Form::Shift if bit(2, w) => self.register(r & 3).put(*b",2"),
            Form::Shift => self.register(r),
            Form::Registers | Form::ReadPointer => self.registers(s, r),
            Form::StorePointer => self.registers(r, s),
            Form::Branch => self.put([b' ', sign, b'$']).hex(operand()),
            Form::External => self.decimal(w & 15).put([b',', sign, b'$']).hex(operand()),
            Form::StoreDirect => self.register(r).put(*b",$").hex(operand()),
            Form::StoreImmediate => self.register(r).put(*b",#$").hex(operand()),
            Form::ReadDirect => self.put(*b" $").hex(operand()).last_register(r),
            Form::ReadImmediate => self.put(*b" #$").hex(memory.joined(at.wrapping_add(1), d)).last_register(r),
            Form::Jump | Form::Call | Form::Decle => unreachable!("a jump has a line of its own"),
        };
        row_of(w, d).words
    }

    /// The first part of a line.
    #[inline(always)]
    fn name(&mut self, name: Name) -> &mut Line {
        self.text[..name.bytes.len()].copy_from_slice(&name.bytes);
        self.length = name.length;
        self
    }

    #[inline(always)]
    fn put<const N: usize>(&mut self, bytes: [u8; N]) -> &mut Line {
        self.text[self.length..self.length + N].copy_from_slice(&bytes);
        self.length += N;
        self
    }

    #[inline(always)]
    fn register(&mut self, n: usize) -> &mut Line {
        self.put([b' ', b'R', digit(n)])
    }

    #[inline(always)]
    fn last_register(&mut self, n: usize) -> &mut Line {
        self.put([b',', b'R', digit(n)])
    }

    #[inline(always)]
    fn registers(&mut self, a: usize, b: usize) -> &mut Line {
        self.put([b' ', b'R', digit(a), b',', b'R', digit(b)])
    }

    #[inline(always)]
    fn hex(&mut self, word: u16) -> &mut Line {
        self.put(digits_of(word))
    }

    /// A number below 16.
    #[inline(always)]
    fn decimal(&mut self, n: u16) -> &mut Line {
        let n = usize::from(n);
        if n < 10 { self.put([b' ', digit(n)]) } else { self.put([b' ', b'1', digit(n - 10)]) }
    }
}

#[inline(always)]
fn digit(n: usize) -> u8 {
    b'0' + n as u8
}
