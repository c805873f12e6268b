//! The shift rows, of R0 to R3, by one or by two.

use crate::machine::Machine;
use crate::opcode::bit;

const LEFT_SIGN: u32 = 15;
const RIGHT_SIGN: u32 = 7;

impl Machine {
    /// 040 to 07F, SWAP SLL RLC SLLC SLR SAR RRC SARC: "R0-R3 by bits 1-0; bit 2 set means by two."
    #[inline(always)]
    pub(crate) fn shift(&mut self, w: u16) {
        let n = usize::from(w & 3);
        let twice = bit(2, w);
        let x = self.r[n];
        let (result, sign) = match w >> 3 & 7 {
            0 => (swap(x, twice), RIGHT_SIGN),
            1 => (x << places(twice), LEFT_SIGN),
            2 => (self.rotate_left(x, twice), LEFT_SIGN),
            3 => {
                self.out_left(x, twice);
                (x << places(twice), LEFT_SIGN)
            }
            4 => (x >> places(twice), RIGHT_SIGN),
            5 => (arithmetic(x, twice), RIGHT_SIGN),
            6 => (self.rotate_right(x, twice), RIGHT_SIGN),
            _ => {
                self.out_right(x, twice);
                (arithmetic(x, twice), RIGHT_SIGN)
            }
        };
        self.r[n] = result;
        self.set_sz(sign, result);
    }

    /// "RLC by one brings C into bit 0; by two C into bit 1, O into bit 0."
    #[inline(always)]
    fn rotate_left(&mut self, x: u16, twice: bool) -> u16 {
        let (c, o) = (u16::from(self.c), u16::from(self.o));
        self.out_left(x, twice);
        if twice { x << 2 | c << 1 | o } else { x << 1 | c }
    }

    /// "RRC by one brings C into bit 15; by two O into 15, C into 14."
    #[inline(always)]
    fn rotate_right(&mut self, x: u16, twice: bool) -> u16 {
        let (c, o) = (u16::from(self.c), u16::from(self.o));
        self.out_right(x, twice);
        if twice { x >> 2 | o << 15 | c << 14 } else { x >> 1 | c << 15 }
    }

    /// "Left through carry: bit 15 to C, and by two bit 14 to O."
    #[inline(always)]
    fn out_left(&mut self, x: u16, twice: bool) {
        self.c = bit(15, x);
        if twice {
            self.o = bit(14, x);
        }
    }

    /// "Right through carry: bit 0 to C, and by two bit 1 to O."
    #[inline(always)]
    fn out_right(&mut self, x: u16, twice: bool) {
        self.c = bit(0, x);
        if twice {
            self.o = bit(1, x);
        }
    }
}

fn places(twice: bool) -> u32 {
    if twice { 2 } else { 1 }
}

/// "SWAP by two copies the low byte to both halves."
fn swap(x: u16, twice: bool) -> u16 {
    if twice { (x & 0xFF) * 0x101 } else { x.swap_bytes() }
}

/// "SAR, SARC repeat the sign."
fn arithmetic(x: u16, twice: bool) -> u16 {
    (x as i16 >> places(twice)) as u16
}
