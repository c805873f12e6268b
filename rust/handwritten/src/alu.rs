//! The flags of a result: "S = bit 15, Z = result zero, unless said otherwise."

use crate::machine::Machine;
use crate::opcode::bit;

impl Machine {
    /// S from the bit given, Z from the whole word.
    #[inline(always)]
    pub(crate) fn set_sz(&mut self, sign: u32, result: u16) {
        self.s = bit(sign, result);
        self.z = result == 0;
    }

    /// A result that sets S and Z only.
    #[inline(always)]
    pub(crate) fn plain(&mut self, result: u16) -> u16 {
        self.set_sz(15, result);
        result
    }

    /// "C = carry out, O = signed overflow."
    #[inline(always)]
    pub(crate) fn add(&mut self, x: u16, y: u16) -> u16 {
        let (result, carry) = x.overflowing_add(y);
        self.c = carry;
        self.o = (x as i16).overflowing_add(y as i16).1;
        self.plain(result)
    }

    /// "C set exactly if there is no borrow."
    #[inline(always)]
    pub(crate) fn subtract(&mut self, x: u16, y: u16) -> u16 {
        let (result, borrow) = x.overflowing_sub(y);
        self.c = !borrow;
        self.o = (x as i16).overflowing_sub(y as i16).1;
        self.plain(result)
    }
}
