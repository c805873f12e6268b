//! The set of reached addresses.

use super::calls;
use super::words::success;
use crate::{Board, Reached, ReachedSet, Refusal};

/// Puts into `set` the addresses that paths from the entries lead to, each with the D that it is reached with; what the set had is gone.
///
/// The entries are reached with D clear; nothing else is an entry by itself. A path goes on at the next instruction; behind a branch both
/// ways, but B only to its target and NOPP only onward; behind a jump at its target, and at the return address if it leaves one. HLT, an
/// unspecified form and any other row that writes its result to R7 are reached and end a path. Memory is taken as it is. The call takes some
/// 140 KiB of the calling thread's stack.
///
/// ```
/// use cp1610::{Board, Reached, ReachedSet};
///
/// let memory = [0x204, 0x0001, 0x000, 0x2AF]; // BEQ +$0001; HLT; MVI@ R5,R7
/// let mut set = ReachedSet::new();
/// let reached = cp1610::reach(&memory, &Board::all_ram(), &[0x0000], &mut set)?;
/// assert_eq!(reached, Reached { addresses: 3, r7_writers: 1, lowest_r7_writer: Some(3) });
/// assert!(set.addresses(false).eq([0, 2, 3])); // not 1, which is BEQ's operand
/// # Ok::<(), cp1610::Refusal>(())
/// ```
///
/// # Errors
///
/// [`Refusal::MemoryTooLong`], then [`Refusal::BadMap`], then [`Refusal::TooManyEntries`], then [`Refusal::WrongSetLength`].
///
/// # Panics
///
/// Only where [another library](crate#panics) was linked.
#[inline]
pub fn reach(memory: &[u16], board: &Board, entries: &[u16], set: &mut ReachedSet) -> Result<Reached, Refusal> {
    let mut out = [0; 4];
    let [with_d_clear, with_d_set] = set.words_mut();
    success(calls::reach(memory, board.map(), entries, with_d_clear, with_d_set, &mut out))?;
    let [addresses, r7_writers, has_lowest, lowest] = out;
    Ok(Reached { addresses, r7_writers, lowest_r7_writer: (has_lowest != 0).then_some(lowest as u16) })
}
