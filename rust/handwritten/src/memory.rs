//! The lent run of words under a board's map: "A read past its end gives $FFFF; a write there does nothing", and so in an empty word.

use crate::board::{Board, Tables};
use cp1610::{LONGEST_MEMORY, Refusal};

const PAST_THE_END: u16 = 0xFFFF;

/// Memory and board as they are read.
#[derive(Clone, Copy)]
pub(crate) struct Words<'a> {
    memory: &'a [u16],
    tables: &'a Tables,
}

impl<'a> Words<'a> {
    /// Refused by 1 and 14, in this order.
    pub fn new(memory: &'a [u16], board: &'a Board) -> Result<Words<'a>, Refusal> {
        check(memory, board)?;
        Ok(Words { memory, tables: &board.tables })
    }

    #[inline(always)]
    pub fn peek(self, at: u16) -> u16 {
        let at = usize::from(at);
        match self.memory.get(at) {
            Some(word) => word | self.tables.ones[at],
            None => past_the_end(),
        }
    }

    /// The low bytes of two successive words, low half first, where D is set; else the one word.
    #[inline(always)]
    pub fn joined(self, from: u16, d: bool) -> u16 {
        let first = self.peek(from);
        if d { first & 0xFF | self.peek(from.wrapping_add(1)) << 8 } else { first }
    }
}

/// Memory and board as a step sees them, and the external inputs. It goes by reference, so that a call passes two pointers.
pub(crate) struct Bus<'a> {
    memory: &'a mut [u16],
    tables: &'a Tables,
    pub external: u16,
}

impl<'a> Bus<'a> {
    /// Refused by 1 and 14, in this order.
    pub fn new(memory: &'a mut [u16], board: &'a Board, external: u16) -> Result<Bus<'a>, Refusal> {
        check(memory, board)?;
        Ok(Bus { memory, tables: &board.tables, external })
    }

    #[inline(always)]
    pub fn words(&self) -> Words<'_> {
        Words { memory: self.memory, tables: self.tables }
    }

    #[inline(always)]
    pub fn peek(&self, at: u16) -> u16 {
        self.words().peek(at)
    }

    #[inline(always)]
    pub fn poke(&mut self, at: u16, word: u16) {
        let at = usize::from(at);
        let kept = self.tables.kept[at];
        if let Some(place) = self.memory.get_mut(at)
            && kept != 0
        {
            *place = word & kept;
        }
    }
}

#[cold]
fn past_the_end() -> u16 {
    PAST_THE_END
}

fn check(memory: &[u16], board: &Board) -> Result<(), Refusal> {
    check_length(memory)?;
    if board.is_bad { Err(Refusal::BadMap) } else { Ok(()) }
}

pub(crate) fn check_length(memory: &[u16]) -> Result<(), Refusal> {
    if memory.len() > LONGEST_MEMORY { Err(Refusal::MemoryTooLong) } else { Ok(()) }
}

/// The words of a region that is to be written. Refused by 1, 7 and 11, in this order.
pub(crate) fn written_region(memory: &[u16], first: u16, last: u16) -> Result<&[u16], Refusal> {
    check_length(memory)?;
    if first > last {
        return Err(Refusal::FirstAboveLast);
    }
    memory.get(first.into()..=last.into()).ok_or(Refusal::PastMemory)
}

/// Whether a memory of this length has so many words from an address on, of which none wraps.
pub(crate) fn check_inside(length: usize, address: u16, count: usize) -> Result<(), Refusal> {
    if usize::from(address) + count > length { Err(Refusal::PastMemory) } else { Ok(()) }
}
