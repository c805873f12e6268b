//! One step, in document 01's order, and a run of steps.

use crate::board::Board;
use crate::execute::{STOP, dispatch};
use crate::machine::Machine;
use crate::memory::Bus;
use crate::opcode::{R6, R7, is_unspecified, opcode_at};
use cp1610::{Cause, Event, HIGHEST_BUDGET, Lines, Refusal, Run, Step};

const INTERRUPT_ADDRESS: u16 = 0x1004;
const GRANT: Step = Step { event: Event::Granted, cycles: 1 };
const INTERRUPT: Step = Step { event: Event::Interrupted, cycles: 12 };

/// A run's cycles stay below its budget + 12; what is left goes lower only by a `STOP`.
const SLACK: i32 = 12;

/// The steps that a run made, and the cycles of its budget that are left.
struct Spent {
    steps: u32,
    left: i32,
}

impl Machine {
    /// One step.
    ///
    /// # Errors
    ///
    /// Refused by 1, 14, 2 and 3, in this order.
    pub fn step(&mut self, memory: &mut [u16], board: &Board, lines: Lines) -> Result<Step, Refusal> {
        let mut bus = Bus::new(memory, board, lines.external)?;
        if self.halted {
            return Err(Refusal::Halted);
        }
        let pending = self.is_noted(lines);
        if let Some(step) = self.serve(&mut bus, lines, pending) {
            return Ok(step);
        }
        let charge = dispatch(self, &mut bus);
        if charge == STOP {
            return Err(Refusal::Unspecified);
        }
        self.level = lines.intrm;
        self.pending = pending;
        Ok(Step { event: Event::Executed, cycles: charge % STOP })
    }

    /// Steps with fixed lines while their cycles are below the budget.
    ///
    /// # Errors
    ///
    /// Refused by 1, 14, 4 and 2, in this order.
    pub fn run(&mut self, memory: &mut [u16], board: &Board, lines: Lines, budget: u32) -> Result<Run, Refusal> {
        let mut bus = Bus::new(memory, board, lines.external)?;
        if budget > HIGHEST_BUDGET {
            return Err(Refusal::BudgetTooHigh);
        }
        if self.halted {
            return Err(Refusal::Halted);
        }
        let mut pending = self.is_noted(lines);
        let mut spent = Spent { steps: 0, left: budget as i32 };
        self.run_asked(&mut bus, lines, &mut pending, &mut spent);
        self.run_unasked(&mut bus, &mut spent);
        if spent.left < -SLACK {
            spent.left += STOP as i32;
            spent.steps -= u32::from(!self.halted);
        }
        if spent.steps > 0 {
            self.level = lines.intrm;
            self.pending = pending;
        }
        let cycles = (budget as i32 - spent.left) as u32;
        Ok(Run { steps: spent.steps, cycles, cause: self.cause(&bus, lines, pending) })
    }

    /// The steps before which a request may be served. The lines are fixed, so the mark of item 2 is the same before each step
    /// until an interrupt is served; from then on, nothing can be asked for but the bus.
    fn run_asked(&mut self, bus: &mut Bus, lines: Lines, pending: &mut bool, spent: &mut Spent) {
        while spent.left > 0 && (*pending || !lines.busrq) {
            let charge = match self.serve(bus, lines, *pending) {
                Some(step) => {
                    *pending = self.pending;
                    step.cycles
                }
                None => dispatch(self, bus),
            };
            spent.left -= charge as i32;
            spent.steps += 1;
        }
    }

    /// The steps before which nothing is asked for: instructions only. A function of its own, so that this loop has the registers to
    /// itself: inlined, it takes one machine instruction a step more.
    #[inline(never)]
    fn run_unasked(&mut self, bus: &mut Bus, spent: &mut Spent) {
        let Spent { mut steps, mut left } = *spent;
        while left > 0 {
            left -= dispatch(self, bus) as i32;
            steps += 1;
        }
        *spent = Spent { steps, left };
    }

    /// Item 2: whether an interrupt is pending under these lines.
    #[inline(always)]
    fn is_noted(&self, lines: Lines) -> bool {
        !lines.intrm && (self.pending || self.level)
    }

    /// Items 3 and 4: what a request does before the next instruction, if it does anything.
    #[inline(always)]
    fn served(&self, lines: Lines, pending: bool) -> Option<Step> {
        if !self.ready {
            None
        } else if !lines.busrq {
            Some(GRANT)
        } else if pending && self.i {
            Some(INTERRUPT)
        } else {
            None
        }
    }

    #[inline(always)]
    fn serve(&mut self, bus: &mut Bus, lines: Lines, pending: bool) -> Option<Step> {
        let step = self.served(lines, pending)?;
        self.level = lines.intrm;
        self.pending = pending;
        if step.event == Event::Interrupted {
            bus.poke(self.r[R6], self.r[R7]);
            self.r[R6] = self.r[R6].wrapping_add(1);
            self.r[R7] = INTERRUPT_ADDRESS;
            self.pending = false;
            self.ready = false;
            self.d = false;
        }
        Some(step)
    }

    /// What ended a run: "halted, then unspecified, then budget".
    fn cause(&self, bus: &Bus, lines: Lines, pending: bool) -> Cause {
        let (words, at) = (bus.words(), self.r[R7]);
        let executes = self.served(lines, pending).is_none();
        if self.halted {
            Cause::Halted
        } else if executes && is_unspecified(words, at, opcode_at(words, at), self.d) {
            Cause::Unspecified
        } else {
            Cause::Budget
        }
    }
}
