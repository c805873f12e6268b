//! The C interface, made of the hand-written kit: what each call has to answer and to leave, as `docs/C-INTERFACE.md` says. In place
//! of a map a call takes the board that the map stands for, or none where it is no map.

use cp1610::calls::{NO_MAP, SHORT_BUFFER};
use cp1610::{LINE_WORDS, Lines, ReachedSet, Refusal, Region, STATE_WORDS, StateWords, Wait};
use handwritten::{Board, Machine};

const DONE: u32 = 1;

fn success(kind: u32, value: u32) -> u64 {
    u64::from(kind) << 32 | u64::from(value)
}

fn refused(refusal: Refusal) -> u64 {
    refusal.number().into()
}

fn lines_of(bits: u32) -> Lines {
    Lines { intrm: bits & 1 != 0, busrq: bits & 2 != 0, external: (bits >> 16) as u16 }
}

pub fn reset(state: &mut [u16]) -> u64 {
    let Some(words) = state.first_chunk_mut::<STATE_WORDS>() else {
        return SHORT_BUFFER;
    };
    *words = Machine::reset().to_words();
    success(DONE, 0)
}

/// Makes a call on the machine that the words stand for, and puts it back unless the call was refused.
fn on_machine<T>(words: &mut StateWords, call: impl FnOnce(&mut Machine) -> Result<T, Refusal>) -> Result<T, Refusal> {
    let mut machine = Machine::from_words(words);
    let answer = call(&mut machine)?;
    *words = machine.to_words();
    Ok(answer)
}

pub fn step(state: &mut [u16], memory: &mut [u16], board: Option<&Board>, lines: u32) -> u64 {
    let (Some(words), Some(board)) = (state.first_chunk_mut(), board) else {
        return SHORT_BUFFER;
    };
    on_machine(words, |machine| machine.step(memory, board, lines_of(lines)))
        .map_or_else(refused, |step| success(step.event as u32, step.cycles))
}

pub fn run(
    state: &mut [u16],
    memory: &mut [u16],
    board: Option<&Board>,
    lines: u32,
    budget: u32,
    out: &mut [u32],
) -> u64 {
    let (Some(words), Some(board), Some(out)) = (state.first_chunk_mut(), board, out.first_chunk_mut()) else {
        return SHORT_BUFFER;
    };
    on_machine(words, |machine| machine.run(memory, board, lines_of(lines), budget)).map_or_else(refused, |run| {
        *out = [run.steps, run.cycles, run.cause as u32];
        success(DONE, 0)
    })
}

pub fn wait(memory: &[u16], board: Option<&Board>, address: u16, limit: u16) -> u64 {
    let Some(board) = board else {
        return NO_MAP;
    };
    match handwritten::wait(memory, board, address, limit) {
        Ok(Wait::Wait { cycles }) => success(1, cycles.into()),
        Ok(Wait::Over) => success(2, 0),
        Ok(Wait::Halts) => success(3, 0),
        Ok(Wait::Unspecified { address }) => success(4, address.into()),
        Ok(other) => unreachable!("the C interface has no {other:?}"),
        Err(refusal) => refused(refusal),
    }
}

pub fn region(memory: &[u16], board: Option<&Board>, first: u16, last: u16, limit: u16, out: &mut [u32]) -> u64 {
    let (Some(board), Some(out)) = (board, out.first_chunk_mut()) else {
        return SHORT_BUFFER;
    };
    reported(handwritten::region(memory, board, first, last, limit), out)
}

/// Puts what a region comes to into `out`, unless it was refused.
fn reported(answer: Result<Region, Refusal>, out: &mut [u32; 5]) -> u64 {
    answer.map_or_else(refused, |region| {
        let (cycles, start) = region.longest.map_or((0, 0), |longest| (longest.cycles, longest.start));
        *out = [
            region.longest.is_some().into(),
            cycles.into(),
            start.into(),
            region.over.is_some().into(),
            region.over.unwrap_or(0).into(),
        ];
        success(DONE, 0)
    })
}

pub fn region_reached(
    memory: &[u16],
    board: Option<&Board>,
    first: u16,
    last: u16,
    limit: u16,
    set: &ReachedSet,
    out: &mut [u32],
) -> u64 {
    let (Some(board), Some(out)) = (board, out.first_chunk_mut()) else {
        return SHORT_BUFFER;
    };
    reported(handwritten::region_reached(memory, board, first, last, limit, set), out)
}

/// What the kit leaves in the set is put back also where it refuses, so that it is seen whether it altered something.
pub fn reach(
    memory: &[u16],
    board: Option<&Board>,
    entries: &[u16],
    clear: &mut [u64],
    set: &mut [u64],
    out: &mut [u32],
) -> u64 {
    let (Some(board), Some(out)) = (board, out.first_chunk_mut()) else {
        return SHORT_BUFFER;
    };
    let mut reached_set = ReachedSet::from_words(clear, set);
    let answer = handwritten::reach(memory, board, entries, &mut reached_set);
    clear.copy_from_slice(reached_set.words(false));
    set.copy_from_slice(reached_set.words(true));
    answer.map_or_else(refused, |reached| {
        let lowest = reached.lowest_r7_writer;
        *out = [reached.addresses, reached.r7_writers, lowest.is_some().into(), lowest.unwrap_or(0).into()];
        success(DONE, 0)
    })
}

pub fn list(memory: &[u16], board: Option<&Board>, address: u16, d: u8, text: &mut [u8], out: &mut [u32]) -> u64 {
    let (Some(board), Some(out)) = (board, out.first_chunk_mut()) else {
        return SHORT_BUFFER;
    };
    match handwritten::list(memory, board, address, d != 0, text) {
        Ok(listed) => {
            *out = [listed.length as u32, listed.words as u32, listed.next_d.into()];
            success(DONE, 0)
        }
        Err(refusal) => refused(refusal),
    }
}

pub fn assemble(line: &[u8], d: u8, words: &mut [u16]) -> u64 {
    if words.len() < LINE_WORDS {
        return SHORT_BUFFER;
    }
    match handwritten::assemble(line, d != 0) {
        Ok(assembled) => {
            let count = assembled.words().len();
            words[..count].copy_from_slice(assembled.words());
            success(DONE, count as u32)
        }
        Err(refusal) => refused(refusal),
    }
}

pub fn load(board: u16, memory: &mut [u16], file: &[u8]) -> u64 {
    handwritten::load(board, memory, file).map_or_else(refused, |records| success(DONE, records as u32))
}

pub fn write(board: u16, memory: &[u16], first: u16, last: u16, room: &mut [u8]) -> u64 {
    handwritten::write(board, memory, first, last, room).map_or_else(refused, |length| success(DONE, length as u32))
}

pub fn load_pair(memory: &mut [u16], bin: &[u8], cfg: &[u8]) -> u64 {
    handwritten::load_pair(memory, bin, cfg).map_or_else(refused, |lines| success(DONE, lines as u32))
}

pub fn write_pair(memory: &[u16], first: u16, last: u16, bin: &mut [u8], cfg: &mut [u8], out: &mut [u32]) -> u64 {
    let Some(out) = out.first_chunk_mut() else {
        return SHORT_BUFFER;
    };
    handwritten::write_pair(memory, first, last, bin, cfg).map_or_else(refused, |lengths| {
        *out = [lengths.bin as u32, lengths.cfg as u32];
        success(DONE, 0)
    })
}
