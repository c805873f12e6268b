//! The instruction rows, and the table with a function for each opcode.

use crate::machine::Machine;
use crate::memory::Bus;
use crate::opcode::{
    CLRC, DIRECT, DIS, EIS, IMMEDIATE, JUMP, NO_RETURN, NOT_TAKEN, OPCODES, R6, R7, SDBD, SETC, STACK, bit,
    branch_target, destination, is_read, is_unspecified, jump_at, opcode_at, row, source,
};

/// What a row's function answers: its cycles, with `STOP` added where a run can't go on. An unspecified form answers `STOP` alone, and
/// nothing was changed.
pub(crate) type Charge = u32;

/// More than any budget, so that a run's loop ends by its one test.
pub(crate) const STOP: Charge = 1 << 24;

type Execute = fn(&mut Machine, &mut Bus) -> Charge;

/// The row of one opcode: `execute` with all that the opcode decides decided while compiling.
fn execute_opcode<const W: u16>(machine: &mut Machine, bus: &mut Bus) -> Charge {
    machine.execute(bus, W)
}

/// An array made of `$make!(.. 0)` to `$make!(.. 31)`.
macro_rules! array_of_32 {
    ($make:ident $($given:tt)*) => {
        array_of_32!(@ $make [$($given)*]
            0 1 2 3 4 5 6 7 8 9 10 11 12 13 14 15 16 17 18 19 20 21 22 23 24 25 26 27 28 29 30 31)
    };
    (@ $make:ident $given:tt $($n:literal)*) => { [$($make!($given $n)),*] };
}

macro_rules! row_of_32 {
    ([] $high:literal) => { array_of_32!(one_opcode $high) };
}

macro_rules! one_opcode {
    ([$high:literal] $low:literal) => {
        execute_opcode::<{ $high * 32 + $low }>
    };
}

static EXECUTE: [[Execute; 32]; OPCODES / 32] = array_of_32!(row_of_32);

/// Executes the instruction at R7.
#[inline(always)]
pub(crate) fn dispatch(machine: &mut Machine, bus: &mut Bus) -> Charge {
    let w = opcode_at(bus.words(), machine.r[R7]);
    EXECUTE.as_flattened()[usize::from(w)](machine, bus)
}

impl Machine {
    /// R7 first moves past the instruction's words, which is what a row sees in it; `at` is the opcode's address.
    #[inline(always)]
    fn execute(&mut self, bus: &mut Bus, w: u16) -> Charge {
        let at = self.r[R7];
        if is_unspecified(bus.words(), at, w, self.d) {
            return STOP;
        }
        let row = row(w, self.d);
        self.r[R7] = at.wrapping_add(row.words.into());
        let mut charge = Charge::from(row.cycles);
        if row.halts {
            self.halted = true;
            charge += STOP;
        }
        match w {
            0x000..=0x007 => self.control(bus, at, w),
            0x008..=0x03F => self.single(w),
            0x040..=0x07F => self.shift(w),
            0x080..=0x1FF => self.operate(w, self.r[source(w)]),
            0x200..=0x23F => {
                if !self.branch(bus, at, w) {
                    charge = NOT_TAKEN.into();
                }
            }
            0x240..=0x27F => self.store(bus, at, w),
            _ => {
                let operand = self.read(bus, at, w);
                self.operate(w, operand);
            }
        }
        self.d = w == SDBD;
        self.ready = row.heard;
        charge
    }

    /// 000 to 007. HLT's and SDBD's marks are set where every row's are; TCI does nothing.
    #[inline(always)]
    fn control(&mut self, bus: &Bus, at: u16, w: u16) {
        match w {
            EIS => self.i = true,
            DIS => self.i = false,
            JUMP => self.jump(bus, at),
            CLRC => self.c = false,
            SETC => self.c = true,
            _ => {}
        }
    }

    /// 004: where to, which register gets the return address, and what becomes of I stand in the words behind the opcode.
    #[inline(always)]
    fn jump(&mut self, bus: &Bus, at: u16) {
        let jump = jump_at(bus.words(), at);
        match jump.return_field {
            NO_RETURN => {}
            n => self.r[4 + usize::from(n)] = self.r[R7],
        }
        match jump.bits {
            1 => self.i = true,
            2 => self.i = false,
            _ => {}
        }
        self.r[R7] = jump.target;
    }

    /// 008 to 03F: INCR DECR COMR NEGR ADCR, then GSWD, NOP and SIN, then RSWD.
    #[inline(always)]
    fn single(&mut self, w: u16) {
        let d = destination(w);
        let x = self.r[d];
        match w >> 3 {
            1 => self.r[d] = self.plain(x.wrapping_add(1)),
            2 => self.r[d] = self.plain(x.wrapping_sub(1)),
            3 => self.r[d] = self.plain(!x),
            4 => self.r[d] = self.subtract(0, x),
            5 => self.r[d] = self.add(x, self.c.into()),
            6 if d < 4 => self.r[d] = self.status_word(),
            6 => {}
            _ => self.set_status(x),
        }
    }

    /// "GSWD writes S Z O C to bits 15-12 and 7-4, zeros elsewhere".
    #[inline(always)]
    fn status_word(&self) -> u16 {
        let [s, z, o, c] = [self.s, self.z, self.o, self.c].map(u16::from);
        (s << 3 | z << 2 | o << 1 | c) * 0x1010
    }

    /// "RSWD takes them from bits 7-4."
    #[inline(always)]
    fn set_status(&mut self, x: u16) {
        self.s = bit(7, x);
        self.z = bit(6, x);
        self.o = bit(5, x);
        self.c = bit(4, x);
    }

    /// MOVR ADDR SUBR CMPR ANDR XORR, and MVI ADD SUB CMP AND XOR.
    #[inline(always)]
    fn operate(&mut self, w: u16, operand: u16) {
        let d = destination(w);
        let x = self.r[d];
        match w >> 6 & 7 {
            2 if is_read(w) => self.r[d] = operand,
            2 => self.r[d] = self.plain(operand),
            3 => self.r[d] = self.add(x, operand),
            4 => self.r[d] = self.subtract(x, operand),
            5 => _ = self.subtract(x, operand),
            6 => self.r[d] = self.plain(x & operand),
            _ => self.r[d] = self.plain(x ^ operand),
        }
    }

    /// 200 to 23F; whether it is taken.
    #[inline(always)]
    fn branch(&mut self, bus: &Bus, at: u16, w: u16) -> bool {
        let taken = self.is_taken(bus.external, w);
        if taken {
            self.r[R7] = branch_target(bus.words(), at, w);
        }
        taken
    }

    /// Bit 4 names an external input by bits 3-0; else bits 2-0 name a condition, which bit 3 negates.
    #[inline(always)]
    fn is_taken(&self, external: u16, w: u16) -> bool {
        if bit(4, w) {
            return bit(u32::from(w & 15), external);
        }
        let holds = match w & 7 {
            0 => true,
            1 => self.c,
            2 => self.o,
            3 => !self.s,
            4 => self.z,
            5 => self.s != self.o,
            6 => self.z || self.s != self.o,
            _ => self.s != self.c,
        };
        holds != bit(3, w)
    }

    /// MVO: "A store takes its value first", and an immediate one sees R7 on its second word.
    #[inline(always)]
    fn store(&mut self, bus: &mut Bus, at: u16, w: u16) {
        let s = source(w);
        let second = at.wrapping_add(1);
        let value = if s == IMMEDIATE && destination(w) == R7 { second } else { self.r[destination(w)] };
        match s {
            DIRECT => bus.poke(bus.peek(second), value),
            IMMEDIATE => bus.poke(second, value),
            1..=3 => bus.poke(self.r[s], value),
            _ => {
                bus.poke(self.r[s], value);
                self.r[s] = self.r[s].wrapping_add(1);
            }
        }
    }

    /// The operand of a read row. "A read moves the pointer first".
    #[inline(always)]
    fn read(&mut self, bus: &Bus, at: u16, w: u16) -> u16 {
        let s = source(w);
        let second = at.wrapping_add(1);
        match s {
            DIRECT => bus.peek(bus.peek(second)),
            IMMEDIATE => bus.words().joined(second, self.d),
            STACK => {
                self.r[R6] = self.r[R6].wrapping_sub(1);
                bus.peek(self.r[R6])
            }
            1..=3 => {
                let word = bus.peek(self.r[s]);
                if self.d { (word & 0xFF) * 0x101 } else { word }
            }
            _ => {
                let from = self.r[s];
                self.r[s] = from.wrapping_add(if self.d { 2 } else { 1 });
                bus.words().joined(from, self.d)
            }
        }
    }
}
