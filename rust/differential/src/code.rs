//! Code with many ways through it, as chance alone does not make it.

use crate::random::Random;
use crate::scene::{any_address, any_branch};

const HLT: u16 = 0x000;
const SDBD: u16 = 0x001;
const JUMP: u16 = 0x004;
const STACK: u16 = 6;
const IMMEDIATE: u16 = 7;

/// How many instructions there are for one that ends a path: with few of them a path is soon over, with many nearly all is reached.
const PATH_LENGTHS: [u64; 3] = [4, 16, 256];

/// Instructions one behind the other, of so many words, whose branches and jumps mostly lead to words of them.
pub fn any_code(random: &mut Random, length: usize) -> Vec<u16> {
    let path_length = random.pick(&PATH_LENGTHS);
    let high_bits = if random.one_in(2) { 0xFC00 } else { 0 };
    let mut words = Vec::with_capacity(length + 4);
    while words.len() < length {
        let at = words.len();
        if random.one_in(path_length) {
            words.extend(any_end(random));
        } else {
            let target = any_address(random, length);
            words.extend(any_way(random, at as u16, target));
        }
        words[at] |= random.word() & high_bits;
    }
    words.truncate(length);
    words
}

/// HLT, an unspecified form, or a row that names R7 as its destination, which the compares among them leave alone.
fn any_end(random: &mut Random) -> Vec<u16> {
    match random.below(8) {
        0 => vec![HLT],
        1 => vec![JUMP, random.word() | 3],
        2 => vec![SDBD, any_read(random, STACK)],
        3 => vec![0x00F + 8 * random.below(5) as u16],
        4 | 5 => vec![0x087 + 8 * random.below(0x30) as u16],
        6 => vec![any_read(random, IMMEDIATE) | 7, random.word()],
        _ => {
            let mode = random.below(8) as u16;
            vec![SDBD, any_read(random, mode) | 7, random.word(), random.word()]
        }
    }
}

/// A branch or a jump to the target, any opcode under D, or one that leaves R7 alone.
fn any_way(random: &mut Random, at: u16, target: u16) -> Vec<u16> {
    match random.below(8) {
        0 | 1 => branch_to(random, at, target),
        2 => jump_to(random, target),
        3 => vec![SDBD, random.below(0x400) as u16],
        _ => {
            let opcode = random.within(0x008..=0x3FF) as u16;
            vec![if opcode & 7 == 7 { opcode - 1 } else { opcode }]
        }
    }
}

/// MVI ADD SUB CMP AND or XOR by this mode, of any register.
fn any_read(random: &mut Random, mode: u16) -> u16 {
    0x280 + 0x40 * random.below(6) as u16 + 8 * mode + random.below(8) as u16
}

/// Forward or backward: a displacement leads everywhere.
fn branch_to(random: &mut Random, at: u16, target: u16) -> Vec<u16> {
    let opcode = any_branch(random);
    let second = at.wrapping_add(1);
    let is_backward = opcode & 0x20 != 0;
    vec![opcode, if is_backward { second.wrapping_sub(target) } else { target.wrapping_sub(second.wrapping_add(1)) }]
}

/// With or without a return address, which is left to chance, as the bits are that count for nothing.
fn jump_to(random: &mut Random, target: u16) -> Vec<u16> {
    let second = random.word() & !0xFF | target >> 10 << 2 | random.below(3) as u16;
    vec![JUMP, second, random.word() & !0x3FF | target & 0x3FF]
}
