//! Image files.

use super::calls;
use super::words::counted;
use crate::Refusal;

/// Loads an image file for `board`, and answers the number of its records, each of 1 to [`RECORD_WORDS`](crate::RECORD_WORDS) words.
///
/// ```
/// let file = b"ID\x00\x02AT\x00\x10\x00\x01\x00\x34OK\x00\x47"; // for board 2, one record: $0034 at $0010
/// let mut memory = [0; 0x20];
/// assert_eq!((cp1610::load(2, &mut memory, file)?, memory[0x10]), (1, 0x0034));
/// # Ok::<(), cp1610::Refusal>(())
/// ```
///
/// # Errors
///
/// [`Refusal::MemoryTooLong`]; then the file's first offence, [`Refusal::MalformedImage`], [`Refusal::WrongBoard`] or
/// [`Refusal::PastMemory`]; then [`Refusal::SumDiffers`].
///
/// # Panics
///
/// Only where [another library](crate#panics) was linked.
#[inline]
pub fn load(board: u16, memory: &mut [u16], file: &[u8]) -> Result<usize, Refusal> {
    counted(calls::load(board, memory, file))
}

/// Writes the words `first..=last` as an image file for `board`, and answers its length: 8 bytes, 2 for each word and 6 for each record, of
/// which all but the last have [`RECORD_WORDS`](crate::RECORD_WORDS) words. The room past it stays; [`IMAGE_ROOM`](crate::IMAGE_ROOM)
/// takes any region.
///
/// ```
/// let memory = [0x0034; 0x20];
/// let mut room = [0; 64];
/// let length = cp1610::write(2, &memory, 0x10, 0x10, &mut room)?;
/// assert_eq!(&room[..length], b"ID\x00\x02AT\x00\x10\x00\x01\x00\x34OK\x00\x47");
/// # Ok::<(), cp1610::Refusal>(())
/// ```
///
/// # Errors
///
/// [`Refusal::MemoryTooLong`], then [`Refusal::FirstAboveLast`], then [`Refusal::PastMemory`], then [`Refusal::RoomTooSmall`].
///
/// # Panics
///
/// Only where [another library](crate#panics) was linked.
#[inline]
pub fn write(board: u16, memory: &[u16], first: u16, last: u16, room: &mut [u8]) -> Result<usize, Refusal> {
    counted(calls::write(board, memory, first, last, room))
}
