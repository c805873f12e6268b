//! The rows of the shifts through carry in `crates/test_shifts/stdin`, whose head says what a row is, on both kits.

use cp1610::{Event, Lines, Mark, Range, STATE_WORDS, StateWords, Step};
use differential::rows::Fields;
use differential::{Handwritten, Kit, Proved};

const ROWS: &str = include_str!("../../../crates/test_shifts/stdin");

/// The file is not cut short.
const COUNT: usize = 1_088;

/// The registers but R7, where a row names none of them.
const REGISTERS: [u16; 7] = [0x1010, 0x1111, 0x1212, 0x1313, 0x1414, 0x1515, 0x1616];

const FLAGS: [(char, Mark); 4] = [('S', Mark::S), ('Z', Mark::Z), ('O', Mark::O), ('C', Mark::C)];

/// The state with a word in a register, some flags set, R7, and ready.
fn state(register: usize, word: &str, flags: &str, next: u16, ready: u16) -> StateWords {
    let mut state = [0; STATE_WORDS];
    state[..REGISTERS.len()].copy_from_slice(&REGISTERS);
    state[REGISTERS.len()] = next;
    state[register] = u16::from_str_radix(word, 2).expect("binary digits");
    for (flag, mark) in FLAGS {
        state[mark as usize] = flags.contains(flag).into();
    }
    state[Mark::Ready as usize] = ready;
    state[Mark::Level as usize] = 1;
    state
}

/// The register that a line such as `RLC R0,2` names.
fn register(line: &str) -> Option<usize> {
    let (_, operand) = line.split_once(" R")?;
    operand.get(..1)?.parse().ok().filter(|register| *register < 4)
}

/// Makes the step of a row, and compares all that it answers and leaves.
fn check_row<K: Kit>(row: &str, board: &K::Board) -> Result<(), String> {
    let mut fields = Fields::read(row.strip_prefix("shift ").ok_or("no shift")?)?;
    let line = fields.expect("text")?;
    let register = register(line).ok_or("no register")?;
    let before = state(register, fields.expect("word")?, fields.expect("flags")?, 0, 1);
    let after = state(register, fields.expect("result")?, fields.expect("left")?, 1, 0);
    let cycles = fields.number("cycles", 0)?;
    fields.end()?;
    let assembled = K::assemble(line.as_bytes(), false).map_err(|refusal| format!("{refusal:?}"))?;
    let mut memory = assembled.words().to_vec();
    let mut machine = K::from_words(&before);
    let step = K::step(&mut machine, &mut memory, board, Lines::QUIET);
    assert_eq!(step, Ok(Step { event: Event::Executed, cycles }), "{row}");
    assert_eq!(K::to_words(&machine), after, "{row}");
    assert_eq!(memory, assembled.words(), "{row}");
    Ok(())
}

fn check<K: Kit>() {
    let board = K::board(&[Range::ALL_RAM]);
    let rows = ROWS.lines().filter(|row| !row.is_empty() && !row.starts_with('#'));
    let count = rows.map(|row| check_row::<K>(row, &board).unwrap_or_else(|wrong| panic!("{wrong}: {row}"))).count();
    assert_eq!(count, COUNT);
}

#[test]
fn proved() {
    check::<Proved>();
}

#[test]
fn handwritten() {
    check::<Handwritten>();
}
