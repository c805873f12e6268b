//! The workloads. Each round prepares its memory and its rooms anew and outside of what is measured, in the same way for both
//! kits: memory is written in full before a run, and cleared before a load; a room for a file is cleared before a write. A board is made
//! then too, as a program makes one for many calls; it is all-RAM unless the workload says another.

use crate::images;
use crate::measured::{Measured, digest, time_of};
use crate::pairs;
use crate::programs::{self, Program, SIX_RANGES, made_up_words, sixteen_ranges};
use crate::reaching;
use cp1610::{HIGHEST_BUDGET, HIGHEST_LIMIT, LONGEST_MEMORY, Lines, Range, TEXT_ROOM};
use differential::{Handwritten, Kit, Proved};
use std::hint::black_box;

/// A workload, with either kit.
pub struct Workload {
    pub name: &'static str,
    /// What the figures are for one of.
    pub unit: &'static str,
    pub proved: fn() -> Measured,
    pub handwritten: fn() -> Measured,
}

macro_rules! workload {
    ($name:literal, $unit:literal, $($measure:ident)::+ $(, $size:literal)?) => {
        Workload {
            name: $name,
            unit: $unit,
            proved: $($measure)::+::<Proved $(, $size)?>,
            handwritten: $($measure)::+::<Handwritten $(, $size)?>,
        }
    };
}

pub const WORKLOADS: [Workload; 49] = [
    workload!("run-alu", "step", run_alu),
    workload!("run-copy", "step", run_copy),
    workload!("run-mixed", "step", run_mixed),
    workload!("run-mixed-six", "step", run_mixed_six),
    workload!("run-mixed-sixteen", "step", run_mixed_sixteen),
    workload!("run-100-cycles", "step", run_shortly),
    workload!("run-carry", "step", run_carry),
    workload!("run-rlc", "step", run_carry_row, 0),
    workload!("run-rlc-2", "step", run_carry_row, 1),
    workload!("run-sllc", "step", run_carry_row, 2),
    workload!("run-sllc-2", "step", run_carry_row, 3),
    workload!("run-rrc", "step", run_carry_row, 4),
    workload!("run-rrc-2", "step", run_carry_row, 5),
    workload!("run-sarc", "step", run_carry_row, 6),
    workload!("run-sarc-2", "step", run_carry_row, 7),
    workload!("step", "step", step),
    workload!("wait", "call", wait),
    workload!("region", "start", region),
    workload!("region-long-walks", "row", region_long_walks),
    workload!("list", "line", list),
    workload!("assemble", "line", assemble),
    workload!("load-16", "word", images::load, 16),
    workload!("load-1024", "word", images::load, 1_024),
    workload!("load-4096", "word", images::load, 4_096),
    workload!("load", "word", images::load, 65_536),
    workload!("write-16", "word", images::write, 16),
    workload!("write-1024", "word", images::write, 1_024),
    workload!("write-4096", "word", images::write, 4_096),
    workload!("write", "word", images::write, 65_536),
    workload!("write-and-load-16", "file", images::write_and_load),
    workload!("load-pair-16", "word", pairs::load, 16),
    workload!("load-pair-1024", "word", pairs::load, 1_024),
    workload!("load-pair", "word", pairs::load, 65_536),
    workload!("load-pair-lines", "line", pairs::load_lines),
    workload!("write-pair-16", "word", pairs::write, 16),
    workload!("write-pair-1024", "word", pairs::write, 1_024),
    workload!("write-pair", "word", pairs::write, 65_536),
    workload!("reach-code", "node", reaching::code, 65_536),
    workload!("reach-code-16384", "node", reaching::code, 16_384),
    workload!("reach-code-4096", "node", reaching::code, 4_096),
    workload!("reach-code-1024", "node", reaching::code, 1_024),
    workload!("reach-16-entries", "node", reaching::code_from_most),
    workload!("reach-line", "node", reaching::line),
    workload!("reach-backward", "node", reaching::backward),
    workload!("reach-forks", "node", reaching::forks),
    workload!("reach-game", "node", reaching::game),
    workload!("reach-tables", "node", reaching::tables),
    workload!("region-members", "start", reaching::members),
    workload!("region-non-members", "address", reaching::non_members),
];

const SHORT_RUN: u32 = 100;
const SHORT_RUNS: u32 = HIGHEST_BUDGET / SHORT_RUN;

/// The ranges of the board where a workload says no other.
pub const ALL_RAM: &[Range] = &[Range::ALL_RAM];

/// What a wait is limited to where a workload says no other: what 0 asked for up to interface 4, so that the figures compare with those of
/// before.
pub const LIMIT: u16 = 57;

/// Runs a program for so many cycles at a time, and so many times. The lines are hidden from the compiler.
fn run<K: Kit>(mut program: Program, ranges: &[Range], cycles: u32, times: u32) -> Measured {
    let (mut machine, board) = (K::from_words(&program.state), K::board(ranges));
    let mut steps = 0;
    let time = time_of(|| {
        for _ in 0..times {
            let run = K::run(&mut machine, &mut program.memory, &board, black_box(Lines::QUIET), black_box(cycles));
            steps += u64::from(run.map_or(0, |run| run.steps));
        }
    });
    Measured { units: steps, time, digest: digest((K::to_words(&machine), program.memory)) }
}

fn run_alu<K: Kit>() -> Measured {
    run::<K>(programs::alu(), ALL_RAM, HIGHEST_BUDGET, 1)
}

fn run_copy<K: Kit>() -> Measured {
    run::<K>(programs::copy(), ALL_RAM, HIGHEST_BUDGET, 1)
}

fn run_mixed<K: Kit>() -> Measured {
    run::<K>(programs::mixed(), ALL_RAM, HIGHEST_BUDGET, 1)
}

fn run_mixed_six<K: Kit>() -> Measured {
    run::<K>(programs::mixed(), &SIX_RANGES, HIGHEST_BUDGET, 1)
}

fn run_mixed_sixteen<K: Kit>() -> Measured {
    run::<K>(programs::mixed(), &sixteen_ranges(), HIGHEST_BUDGET, 1)
}

fn run_shortly<K: Kit>() -> Measured {
    run::<K>(programs::mixed(), ALL_RAM, SHORT_RUN, SHORT_RUNS)
}

fn run_carry<K: Kit>() -> Measured {
    run::<K>(programs::carry(), ALL_RAM, HIGHEST_BUDGET, 1)
}

fn run_carry_row<K: Kit, const ROW: usize>() -> Measured {
    run::<K>(programs::carry_row(ROW), ALL_RAM, HIGHEST_BUDGET, 1)
}

fn step<K: Kit>() -> Measured {
    const STEPS: u64 = 100_000;
    let mut program = programs::mixed();
    let (mut machine, board) = (K::from_words(&program.state), K::board(ALL_RAM));
    let mut cycles = 0;
    let time = time_of(|| {
        for _ in 0..STEPS {
            let step = K::step(&mut machine, &mut program.memory, &board, black_box(Lines::QUIET));
            cycles += step.map_or(0, |step| step.cycles);
        }
    });
    Measured { units: STEPS, time, digest: digest((K::to_words(&machine), program.memory, cycles)) }
}

fn wait<K: Kit>() -> Measured {
    let (memory, board) = (made_up_words(), K::board(ALL_RAM));
    let mut answers = Vec::with_capacity(LONGEST_MEMORY);
    let time = time_of(|| {
        for address in 0..=u16::MAX {
            answers.push(K::wait(&memory, &board, address, LIMIT));
        }
    });
    Measured { units: answers.len() as u64, time, digest: digest(format!("{answers:?}")) }
}

/// A region of made-up words: short walks, as code has them.
fn region<K: Kit>() -> Measured {
    let (memory, board) = (made_up_words(), K::board(ALL_RAM));
    let mut found = None;
    let time = time_of(|| found = K::region(&memory, &board, 0, u16::MAX, black_box(LIMIT)).ok());
    Measured { units: LONGEST_MEMORY as u64, time, digest: digest(format!("{found:?}")) }
}

/// CLRC alone at the highest limit: 1,024 rows of 4 cycles are walked within the limit, and one more to pass it.
fn region_long_walks<K: Kit>() -> Measured {
    const CLRC: u16 = 0x006;
    const STARTS: u16 = 256;
    const ROWS: u64 = HIGHEST_LIMIT as u64 / 4 + 1;
    let (memory, board) = (vec![CLRC; LONGEST_MEMORY], K::board(ALL_RAM));
    let mut found = None;
    let time = time_of(|| found = K::region(&memory, &board, 0, STARTS - 1, black_box(HIGHEST_LIMIT)).ok());
    Measured { units: u64::from(STARTS) * ROWS, time, digest: digest(format!("{found:?}")) }
}

/// How many addresses are listed, each with D clear and with D set.
const LISTED: u16 = 4_096;

fn list<K: Kit>() -> Measured {
    let (memory, board) = (made_up_words(), K::board(ALL_RAM));
    let mut lines = vec![([0; TEXT_ROOM], 0); 2 * usize::from(LISTED)];
    let time = time_of(|| {
        for (n, (text, length)) in lines.iter_mut().enumerate() {
            let listed = K::list(&memory, &board, (n / 2) as u16, n % 2 == 1, text);
            *length = listed.map_or(0, |listed| listed.length);
        }
    });
    Measured { units: lines.len() as u64, time, digest: digest(lines) }
}

/// The same lines as those listed.
fn assemble<K: Kit>() -> Measured {
    let (memory, board) = (made_up_words(), handwritten::Board::all_ram());
    let mut lines = Vec::new();
    for n in 0..2 * LISTED {
        let mut text = [0; TEXT_ROOM];
        let listed = handwritten::list(&memory, &board, n / 2, n % 2 == 1, &mut text)
            .expect("memory and room are as they have to be");
        lines.push((text[..listed.length].to_vec(), n % 2 == 1));
    }
    let mut words = Vec::with_capacity(lines.len());
    let time = time_of(|| {
        for (line, d) in &lines {
            words.push(K::assemble(line, *d));
        }
    });
    Measured { units: lines.len() as u64, time, digest: digest(format!("{words:?}")) }
}
