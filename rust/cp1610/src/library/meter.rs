//! The wait meter.

use super::calls;
use super::words::{success, unexpected};
use crate::{Board, Longest, ReachedSet, Refusal, Region, Wait};

/// What the C interface reports of a region.
const REGION_WORDS: usize = 5;

/// How long a bus request waits that comes before the instruction at `address`. A limit of 0 means
/// [`DEFAULT_LIMIT`](crate::DEFAULT_LIMIT), 48.
///
/// ```
/// use cp1610::{Board, Wait};
///
/// let memory = [0x048, 0x04C, 0x007, 0x034]; // SLL R0; SLL R0,2; SETC; NOP
/// let board = Board::all_ram();
/// assert_eq!(cp1610::wait(&memory, &board, 0, 0)?, Wait::Wait { cycles: 24 });
/// assert_eq!(cp1610::wait(&memory, &board, 0, 23)?, Wait::Over);
///
/// let memory = [0x248, 0x248, 0x248, 0x006, 0x006, 0x006, 0x006, 0x006, 0x006, 0x034]; // three MVO@, six CLRC, NOP
/// assert_eq!(cp1610::wait(&memory, &board, 1, 0)?, Wait::Wait { cycles: 48 });
/// assert_eq!(cp1610::wait(&memory, &board, 0, 0)?, Wait::Over);
/// assert_eq!(cp1610::wait(&memory, &board, 0, 57)?, Wait::Wait { cycles: 57 });
/// # Ok::<(), cp1610::Refusal>(())
/// ```
///
/// # Errors
///
/// [`Refusal::MemoryTooLong`], then [`Refusal::BadMap`], then [`Refusal::LimitTooHigh`].
///
/// # Panics
///
/// Only where [another library](crate#panics) was linked.
#[inline]
pub fn wait(memory: &[u16], board: &Board, address: u16, limit: u16) -> Result<Wait, Refusal> {
    let answer = success(calls::wait(memory, board.map(), address, limit))?;
    Ok(match answer.kind {
        1 => Wait::Wait { cycles: answer.value as u16 },
        2 => Wait::Over,
        3 => Wait::Halts,
        4 => Wait::Unspecified { address: answer.value as u16 },
        kind => unexpected("kind of wait", kind.into()),
    })
}

/// The longest wait from any address of `first..=last` and its lowest start, and the lowest start over the limit. A limit of 0 means
/// [`DEFAULT_LIMIT`](crate::DEFAULT_LIMIT), 48.
///
/// ```
/// use cp1610::{Board, Longest, Region};
///
/// let memory = [0x048, 0x04C, 0x007, 0x034];
/// let longest = Some(Longest { cycles: 18, start: 1 });
/// assert_eq!(cp1610::region(&memory, &Board::all_ram(), 0, 3, 20)?, Region { longest, over: Some(0) });
/// # Ok::<(), cp1610::Refusal>(())
/// ```
///
/// # Errors
///
/// [`Refusal::MemoryTooLong`], then [`Refusal::BadMap`], then [`Refusal::FirstAboveLast`], then [`Refusal::LimitTooHigh`].
///
/// # Panics
///
/// Only where [another library](crate#panics) was linked.
#[inline]
pub fn region(memory: &[u16], board: &Board, first: u16, last: u16, limit: u16) -> Result<Region, Refusal> {
    let mut out = [0; REGION_WORDS];
    success(calls::region(memory, board.map(), first, last, limit, &mut out))?;
    Ok(region_of(out))
}

/// The longest wait from any address of `first..=last` that is in the set with D clear and its lowest start, and the lowest such start
/// over the limit. The set is mostly one that [`reach`](crate::reach) built, but any is taken. A limit of 0 means
/// [`DEFAULT_LIMIT`](crate::DEFAULT_LIMIT), 48.
///
/// ```
/// use cp1610::{Board, Longest, ReachedSet, Region};
///
/// let memory = [0x2BA, 0x0048, 0x04C, 0x007, 0x034]; // MVII #$0048,R2; SLL R0,2; SETC; NOP
/// let (board, mut set) = (Board::all_ram(), ReachedSet::new());
/// cp1610::reach(&memory, &board, &[0], &mut set)?;
/// let longest = |cycles, start| Region { longest: Some(Longest { cycles, start }), over: None };
/// assert_eq!(cp1610::region(&memory, &board, 0, 4, 0)?, longest(24, 1)); // from MVII's operand, which reads as SLL R0
/// assert_eq!(cp1610::region_reached(&memory, &board, 0, 4, 0, &set)?, longest(18, 2));
/// # Ok::<(), cp1610::Refusal>(())
/// ```
///
/// # Errors
///
/// [`Refusal::MemoryTooLong`], then [`Refusal::BadMap`], then [`Refusal::FirstAboveLast`], then [`Refusal::LimitTooHigh`], then
/// [`Refusal::WrongSetLength`].
///
/// # Panics
///
/// Only where [another library](crate#panics) was linked.
#[inline]
pub fn region_reached(
    memory: &[u16],
    board: &Board,
    first: u16,
    last: u16,
    limit: u16,
    set: &ReachedSet,
) -> Result<Region, Refusal> {
    let mut out = [0; REGION_WORDS];
    success(calls::region_reached(
        memory,
        board.map(),
        first,
        last,
        limit,
        set.words(false),
        set.words(true),
        &mut out,
    ))?;
    Ok(region_of(out))
}

#[inline]
fn region_of([has_wait, cycles, start, has_over, over]: [u32; REGION_WORDS]) -> Region {
    Region {
        longest: (has_wait != 0).then_some(Longest { cycles: cycles as u16, start: start as u16 }),
        over: (has_over != 0).then_some(over as u16),
    }
}
