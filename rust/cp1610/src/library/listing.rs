//! The lister and the one-line assembler.

use super::calls;
use super::words::success;
use crate::{Assembled, Board, LINE_WORDS, Listed, Refusal};

/// Puts the line of the instruction at `address` into `text`, with D as it stands there. The room past the line stays.
///
/// ```
/// let memory = [0x2B8, 0x1234];
/// let mut text = [0; cp1610::TEXT_ROOM];
/// let listed = cp1610::list(&memory, &cp1610::Board::all_ram(), 0, false, &mut text)?;
/// assert_eq!((&text[..listed.length], listed.words), (&b"MVII #$1234,R0"[..], 2));
/// # Ok::<(), cp1610::Refusal>(())
/// ```
///
/// # Errors
///
/// [`Refusal::MemoryTooLong`], then [`Refusal::BadMap`], then [`Refusal::TextRoomTooSmall`].
///
/// # Panics
///
/// Only where [another library](crate#panics) was linked.
#[inline]
pub fn list(memory: &[u16], board: &Board, address: u16, d: bool, text: &mut [u8]) -> Result<Listed, Refusal> {
    let mut out = [0; 3];
    success(calls::list(memory, board.map(), address, d.into(), text, &mut out))?;
    let [length, words, next_d] = out;
    Ok(Listed { length: length as usize, words: words as usize, next_d: next_d != 0 })
}

/// The words of a line, with D as it stands before it.
///
/// ```
/// assert_eq!(cp1610::assemble(b"MVII #$1234,R0", false)?.words(), [0x2B8, 0x1234]);
/// assert_eq!(cp1610::assemble(b"MVII #$1234,R0", true)?.words(), [0x2B8, 0x34, 0x12]);
/// # Ok::<(), cp1610::Refusal>(())
/// ```
///
/// # Errors
///
/// [`Refusal::NotAListingLine`].
///
/// # Panics
///
/// Only where [another library](crate#panics) was linked.
#[inline]
pub fn assemble(line: &[u8], d: bool) -> Result<Assembled, Refusal> {
    let mut words = [0; LINE_WORDS];
    let answer = success(calls::assemble(line, d.into(), &mut words))?;
    Ok(Assembled::first(answer.value, words))
}
