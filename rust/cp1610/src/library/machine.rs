//! A machine of the proved core.

use super::calls;
use super::words::{line_bits, success, unexpected};
use crate::{Board, Cause, Event, Lines, Mark, Refusal, Register, Run, STATE_WORDS, StateWords, Step};

const REGISTERS: usize = 8;

/// A machine: eight registers and the marks.
///
/// ```
/// use cp1610::{Machine, Mark, Register};
///
/// let mut machine = Machine::reset();
/// assert_eq!(machine.register(Register::R7), 0x1000);
/// machine.set_register(Register::R7, 0x5000);
/// machine.set(Mark::I, true);
/// assert!(machine.is_set(Mark::I));
/// ```
#[derive(Clone, Debug, PartialEq, Eq, Hash)]
pub struct Machine {
    /// As the C interface has them, the marks 0 or 1.
    words: StateWords,
}

impl Machine {
    /// A machine after reset: R7 is $1000, the INTRM level was high, and all else is 0 or clear.
    pub fn reset() -> Machine {
        let mut words = [0; STATE_WORDS];
        calls::reset(&mut words);
        Machine { words }
    }

    /// The machine that these words stand for.
    pub fn from_words(words: &StateWords) -> Machine {
        let mut words = *words;
        for mark in &mut words[REGISTERS..] {
            *mark = (*mark != 0).into();
        }
        Machine { words }
    }

    /// The words that stand for this machine; its marks are 0 or 1.
    pub fn to_words(&self) -> StateWords {
        self.words
    }

    /// What the register holds.
    pub fn register(&self, register: Register) -> u16 {
        self.words[register as usize]
    }

    /// Puts a word into the register.
    pub fn set_register(&mut self, register: Register, word: u16) {
        self.words[register as usize] = word;
    }

    /// Whether the flag or mark is set.
    pub fn is_set(&self, mark: Mark) -> bool {
        self.words[mark as usize] != 0
    }

    /// Sets or clears the flag or mark.
    pub fn set(&mut self, mark: Mark, to: bool) {
        self.words[mark as usize] = to.into();
    }

    /// One step: the bus is granted, an interrupt is entered, or an instruction is executed.
    ///
    /// ```
    /// use cp1610::{Board, Event, Lines, Machine, Register, Step};
    ///
    /// let mut memory = [0x009]; // INCR R1
    /// let mut machine = Machine::reset();
    /// machine.set_register(Register::R7, 0);
    /// let step = machine.step(&mut memory, &Board::all_ram(), Lines::QUIET)?;
    /// assert_eq!(step, Step { event: Event::Executed, cycles: 6 });
    /// assert_eq!(machine.register(Register::R1), 1);
    /// # Ok::<(), cp1610::Refusal>(())
    /// ```
    ///
    /// # Errors
    ///
    /// [`Refusal::MemoryTooLong`], then [`Refusal::BadMap`], then [`Refusal::Halted`], then [`Refusal::Unspecified`].
    ///
    /// # Panics
    ///
    /// Only where [another library](crate#panics) was linked.
    #[inline]
    pub fn step(&mut self, memory: &mut [u16], board: &Board, lines: Lines) -> Result<Step, Refusal> {
        let answer = success(calls::step(&mut self.words, memory, board.map(), line_bits(lines)))?;
        let event = match answer.kind {
            3 => Event::Granted,
            4 => Event::Interrupted,
            5 => Event::Executed,
            kind => unexpected("kind of step", kind.into()),
        };
        Ok(Step { event, cycles: answer.value })
    }

    /// Steps with fixed lines, while their cycles are below the budget, the machine is not halted and the next step is not
    /// refused as unspecified.
    ///
    /// ```
    /// use cp1610::{Board, Cause, Lines, Machine, Register, Run};
    ///
    /// let mut memory = [0x009, 0x220, 0x0002]; // INCR R1; B -$0002
    /// let mut machine = Machine::reset();
    /// machine.set_register(Register::R7, 0);
    /// let run = machine.run(&mut memory, &Board::all_ram(), Lines::QUIET, 150)?;
    /// assert_eq!(run, Run { steps: 20, cycles: 150, cause: Cause::Budget });
    /// assert_eq!(machine.register(Register::R1), 10);
    /// # Ok::<(), cp1610::Refusal>(())
    /// ```
    ///
    /// # Errors
    ///
    /// [`Refusal::MemoryTooLong`], then [`Refusal::BadMap`], then [`Refusal::BudgetTooHigh`], then [`Refusal::Halted`].
    ///
    /// # Panics
    ///
    /// Only where [another library](crate#panics) was linked.
    #[inline]
    pub fn run(&mut self, memory: &mut [u16], board: &Board, lines: Lines, budget: u32) -> Result<Run, Refusal> {
        let mut out = [0; 3];
        success(calls::run(&mut self.words, memory, board.map(), line_bits(lines), budget, &mut out))?;
        let [steps, cycles, cause] = out;
        let cause = match cause {
            0 => Cause::Halted,
            1 => Cause::Unspecified,
            2 => Cause::Budget,
            cause => unexpected("cause", cause.into()),
        };
        Ok(Run { steps, cycles, cause })
    }
}
