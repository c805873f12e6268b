//! What each call answers.

use crate::LINE_WORDS;

/// Which of the order's items 3, 4 and 5 a step was; the numbers are document 01's.
#[derive(Clone, Copy, Debug, PartialEq, Eq, Hash)]
#[non_exhaustive]
pub enum Event {
    /// The bus was granted.
    Granted = 3,
    /// An interrupt was entered.
    Interrupted = 4,
    /// An instruction was executed.
    Executed = 5,
}

/// What a step answers.
#[derive(Clone, Copy, Debug, PartialEq, Eq, Hash)]
pub struct Step {
    /// What happened.
    pub event: Event,
    /// The cycles that it took.
    pub cycles: u32,
}

/// What ended a run; the numbers are the C interface's.
#[derive(Clone, Copy, Debug, PartialEq, Eq, Hash)]
#[non_exhaustive]
pub enum Cause {
    /// The machine is halted.
    Halted = 0,
    /// The next step meets an unspecified form.
    Unspecified = 1,
    /// The cycles reached the budget.
    Budget = 2,
}

/// What a run answers.
#[derive(Clone, Copy, Debug, PartialEq, Eq, Hash)]
pub struct Run {
    /// The steps made.
    pub steps: u32,
    /// Their cycles.
    pub cycles: u32,
    /// What ended them.
    pub cause: Cause,
}

/// What the wait meter says of an address.
#[derive(Clone, Copy, Debug, PartialEq, Eq, Hash)]
#[non_exhaustive]
pub enum Wait {
    /// A request is heard in time.
    Wait {
        /// The cycles after which it is.
        cycles: u16,
    },
    /// It is not heard within the limit.
    Over,
    /// The walk meets HLT.
    Halts,
    /// The walk meets an unspecified form.
    Unspecified {
        /// The form's address.
        address: u16,
    },
}

/// The longest wait of a region, and the lowest address that has it.
#[derive(Clone, Copy, Debug, PartialEq, Eq, Hash)]
pub struct Longest {
    /// The wait in cycles.
    pub cycles: u16,
    /// Where it starts.
    pub start: u16,
}

/// What the wait meter says of a region.
#[derive(Clone, Copy, Debug, PartialEq, Eq, Hash)]
pub struct Region {
    /// The longest wait, if any address has one.
    pub longest: Option<Longest>,
    /// The lowest address that is over the limit, if any is.
    pub over: Option<u16>,
}

/// What following all paths answers beside the set.
#[derive(Clone, Copy, Debug, PartialEq, Eq, Hash)]
pub struct Reached {
    /// How many addresses are in the set; one that is reached with either D counts once.
    pub addresses: u32,
    /// How many of them have an instruction that writes its result to R7, which ends the path; jumps and branches are none of these.
    pub r7_writers: u32,
    /// The lowest of those.
    pub lowest_r7_writer: Option<u16>,
}

/// What the lister answers beside the text.
#[derive(Clone, Copy, Debug, PartialEq, Eq, Hash)]
pub struct Listed {
    /// The bytes of the text.
    pub length: usize,
    /// The words of the instruction.
    pub words: usize,
    /// Whether D is set after it.
    pub next_d: bool,
}

/// What the writer of a pair answers: how far each room is written.
#[derive(Clone, Copy, Debug, PartialEq, Eq, Hash)]
pub struct PairLengths {
    /// The bytes of the flat file.
    pub bin: usize,
    /// The bytes of the mapping text.
    pub cfg: usize,
}

/// What the assembler answers: one to three words.
#[derive(Clone, Copy, Debug, PartialEq, Eq, Hash)]
pub struct Assembled {
    /// Those past the count are 0.
    words: [u16; LINE_WORDS],
    count: usize,
}

impl Assembled {
    /// These words; an array of none, or of more than a line stands for, does not compile.
    ///
    /// ```
    /// assert_eq!(cp1610::Assembled::new([0x2B8, 0x1234]).words(), [0x2B8, 0x1234]);
    /// ```
    ///
    /// ```compile_fail
    /// cp1610::Assembled::new([0; 4]);
    /// ```
    #[inline]
    pub fn new<const COUNT: usize>(given: [u16; COUNT]) -> Assembled {
        const { assert!(1 <= COUNT && COUNT <= LINE_WORDS, "a line stands for one to three words") };
        let mut words = [0; LINE_WORDS];
        words[..COUNT].copy_from_slice(&given);
        Assembled { words, count: COUNT }
    }

    /// The first `count` of the words. The count is the proved core's: one to three, but where another library was linked.
    #[cfg(feature = "library")]
    #[inline]
    pub(crate) fn first(count: u32, words: [u16; LINE_WORDS]) -> Assembled {
        Assembled { words, count: count as usize }
    }

    /// The words of the line.
    #[inline]
    pub fn words(&self) -> &[u16] {
        &self.words[..self.count.min(LINE_WORDS)]
    }
}
