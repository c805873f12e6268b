//! Pairs: a flat file of words and the mapping text that says where they go.

use super::calls;
use super::words::{counted, success};
use crate::{PairLengths, Refusal};

/// Loads the words of a flat file to where the lines of a mapping text say, later lines winning, and answers the number of lines.
///
/// ```
/// let bin = b"\x12\x34\x56\x78"; // two words, high byte first
/// let cfg = b"[mapping]\n$0000 - $0001 = $0010\n"; // words 0 to 1 of the file go to address $0010
/// let mut memory = [0; 0x20];
/// assert_eq!(cp1610::load_pair(&mut memory, bin, cfg)?, 1);
/// assert_eq!(memory[0x10..0x12], [0x1234, 0x5678]);
/// # Ok::<(), cp1610::Refusal>(())
/// ```
///
/// # Errors
///
/// [`Refusal::MemoryTooLong`], then [`Refusal::MalformedMapping`], then [`Refusal::MissingFileWords`], then [`Refusal::PastMemory`],
/// each over all lines.
///
/// # Panics
///
/// Only where [another library](crate#panics) was linked.
#[inline]
pub fn load_pair(memory: &mut [u16], bin: &[u8], cfg: &[u8]) -> Result<usize, Refusal> {
    counted(calls::load_pair(memory, bin, cfg))
}

/// Writes the words `first..=last` as a flat file and its mapping text of one line, and answers both lengths. The rooms past them stay.
///
/// ```
/// let memory = [0x1234; 0x20];
/// let (mut bin, mut cfg) = ([0; 64], [0; cp1610::CFG_ROOM]);
/// let lengths = cp1610::write_pair(&memory, 0x10, 0x11, &mut bin, &mut cfg)?;
/// assert_eq!(bin[..lengths.bin], [0x12, 0x34, 0x12, 0x34]);
/// assert_eq!(&cfg[..lengths.cfg], b"[mapping]\n$0000 - $0001 = $0010\n");
/// # Ok::<(), cp1610::Refusal>(())
/// ```
///
/// # Errors
///
/// [`Refusal::MemoryTooLong`], then [`Refusal::FirstAboveLast`], then [`Refusal::PastMemory`], then [`Refusal::RoomTooSmall`] for
/// either room.
///
/// # Panics
///
/// Only where [another library](crate#panics) was linked.
#[inline]
pub fn write_pair(
    memory: &[u16],
    first: u16,
    last: u16,
    bin: &mut [u8],
    cfg: &mut [u8],
) -> Result<PairLengths, Refusal> {
    let mut out = [0; 2];
    success(calls::write_pair(memory, first, last, bin, cfg, &mut out))?;
    let [bin, cfg] = out.map(|length| length as usize);
    Ok(PairLengths { bin, cfg })
}
