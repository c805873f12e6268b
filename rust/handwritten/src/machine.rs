//! The state of a machine.

use crate::opcode::R7;
use cp1610::{Mark, STATE_WORDS, StateWords};

const RESET_ADDRESS: u16 = 0x1000;

/// Registers, flags and marks, which every step changes in place.
#[derive(Clone, Debug, PartialEq, Eq)]
pub struct Machine {
    pub(crate) r: [u16; 8],
    pub(crate) s: bool,
    pub(crate) z: bool,
    pub(crate) o: bool,
    pub(crate) c: bool,
    pub(crate) i: bool,
    pub(crate) halted: bool,
    // Every row sets these two, in one store.
    pub(crate) d: bool,
    pub(crate) ready: bool,
    /// The previous INTRM level.
    pub(crate) level: bool,
    pub(crate) pending: bool,
}

impl Machine {
    /// A machine after reset.
    pub fn reset() -> Machine {
        let mut words = [0; STATE_WORDS];
        words[R7] = RESET_ADDRESS;
        words[Mark::Level as usize] = 1;
        Machine::from_words(&words)
    }

    /// The machine that these words stand for.
    pub fn from_words(words: &StateWords) -> Machine {
        let set = |mark: Mark| words[mark as usize] != 0;
        Machine {
            r: std::array::from_fn(|n| words[n]),
            s: set(Mark::S),
            z: set(Mark::Z),
            o: set(Mark::O),
            c: set(Mark::C),
            i: set(Mark::I),
            d: set(Mark::D),
            halted: set(Mark::Halted),
            ready: set(Mark::Ready),
            level: set(Mark::Level),
            pending: set(Mark::Pending),
        }
    }

    /// The words that stand for this machine; its marks are 0 or 1.
    pub fn to_words(&self) -> StateWords {
        let mut words = [0; STATE_WORDS];
        words[..8].copy_from_slice(&self.r);
        let marks = [
            (Mark::S, self.s),
            (Mark::Z, self.z),
            (Mark::O, self.o),
            (Mark::C, self.c),
            (Mark::I, self.i),
            (Mark::D, self.d),
            (Mark::Halted, self.halted),
            (Mark::Ready, self.ready),
            (Mark::Level, self.level),
            (Mark::Pending, self.pending),
        ];
        for (mark, set) in marks {
            words[mark as usize] = set.into();
        }
        words
    }
}
