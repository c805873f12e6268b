//! Cases of the step and of the run.

use super::{board, memory, put_words, same, same_items, wanted};
use crate::kit::Kit;
use crate::rows::Fields;
use cp1610::{Cause, Event, Lines, Mark, Run, STATE_WORDS, StateWords, Step};

const REGISTERS: [&str; 8] = ["r0", "r1", "r2", "r3", "r4", "r5", "r6", "r7"];
const FLAGS: [(char, Mark); 6] =
    [('S', Mark::S), ('Z', Mark::Z), ('O', Mark::O), ('C', Mark::C), ('I', Mark::I), ('D', Mark::D)];
const MARKS: [(&str, Mark); 4] =
    [("halted", Mark::Halted), ("ready", Mark::Ready), ("level", Mark::Level), ("pending", Mark::Pending)];

/// The state of a case that names nothing of it.
fn usual_state() -> StateWords {
    let mut state = [0; STATE_WORDS];
    state[..REGISTERS.len()].copy_from_slice(&[0x1010, 0x1111, 0x1212, 0x1313, 0x1414, 0x1515, 0x1616, 0x0100]);
    state[Mark::Level as usize] = 1;
    state
}

/// The state that a row names, and what of another it does not name.
fn state(fields: &mut Fields, unnamed: &StateWords) -> Result<StateWords, String> {
    let mut state = *unnamed;
    for (register, key) in state.iter_mut().zip(REGISTERS) {
        *register = fields.word(key, *register)?;
    }
    if let Some(set) = fields.read_as("flags", flags)? {
        for (flag, mark) in FLAGS {
            state[mark as usize] = set.contains(flag).into();
        }
    }
    for (key, mark) in MARKS {
        let word = &mut state[mark as usize];
        *word = fields.bit(key, *word != 0)?.into();
    }
    Ok(state)
}

/// Some of the flags, in their order, or `-` for none.
fn flags(value: &str) -> Option<String> {
    let named: String = FLAGS.iter().map(|(flag, _)| *flag).filter(|flag| value.contains(*flag)).collect();
    (value == "-" || value == named && !named.is_empty()).then_some(named)
}

fn lines(before: &mut Fields) -> Result<Lines, String> {
    let (intrm, busrq) = (before.bit("intrm", true)?, before.bit("busrq", true)?);
    Ok(Lines { intrm, busrq, external: before.word("inputs", 0)? })
}

/// The machine, the lines, the memory and the board that a call gets, and what it has to leave.
struct Scene<K: Kit> {
    state: StateWords,
    lines: Lines,
    memory: Vec<u16>,
    board: K::Board,
    last_state: StateWords,
    last_memory: Vec<u16>,
}

impl<K: Kit> Scene<K> {
    fn read(before: &mut Fields, after: &mut Fields) -> Result<Scene<K>, String> {
        let (state_before, memory) = (state(before, &usual_state())?, memory(before)?);
        let mut last_memory = memory.clone();
        put_words(&mut last_memory, after)?;
        let last_state = state(after, &state_before)?;
        let (lines, board) = (lines(before)?, board::<K>(before)?);
        Ok(Scene { state: state_before, lines, memory, board, last_state, last_memory })
    }

    /// Makes a call, and compares what it answers and leaves.
    fn compare<T: PartialEq + std::fmt::Debug>(
        mut self,
        call: impl FnOnce(&mut K::Machine, &mut [u16], &K::Board, Lines) -> T,
        wanted: T,
    ) -> Result<(), String> {
        let mut machine = K::from_words(&self.state);
        same("answer", call(&mut machine, &mut self.memory, &self.board, self.lines), wanted)?;
        same("state", K::to_words(&machine), self.last_state)?;
        same_items("memory", &self.memory, &self.last_memory)
    }
}

pub(super) fn step<K: Kit>(before: &mut Fields, after: &mut Fields) -> Result<(), String> {
    let scene = Scene::<K>::read(before, after)?;
    let wanted = wanted(after, |answer, after| {
        let event = match answer {
            "granted" => Event::Granted,
            "interrupted" => Event::Interrupted,
            "executed" => Event::Executed,
            _ => return Ok(None),
        };
        Ok(Some(Step { event, cycles: after.number("cycles", 0)? }))
    })?;
    scene.compare(K::step, wanted)
}

pub(super) fn run<K: Kit>(before: &mut Fields, after: &mut Fields) -> Result<(), String> {
    let (scene, budget) = (Scene::<K>::read(before, after)?, before.number("budget", 0)?);
    let wanted = wanted(after, |answer, after| {
        let cause = match answer {
            "halted" => Cause::Halted,
            "unspecified" => Cause::Unspecified,
            "budget" => Cause::Budget,
            _ => return Ok(None),
        };
        Ok(Some(Run { steps: after.number("steps", 0)?, cycles: after.number("cycles", 0)?, cause }))
    })?;
    scene.compare(|machine, memory, board, lines| K::run(machine, memory, board, lines, budget), wanted)
}
