//! Image files: the loader and the writer.

use crate::bytes::{Room, WORD, load_words, words};
use crate::memory::{check_inside, check_length, written_region};
use cp1610::{RECORD_WORDS, Refusal};

const ID: &[u8; 2] = b"ID";
const AT: &[u8; 2] = b"AT";
const OK: &[u8; 2] = b"OK";

/// The bytes of a file's head, a mark and the board; of its tail, a mark and the sum; of a record's head, a mark, the address and the
/// count. A mark has as many as a number.
const HEAD: usize = 2 * WORD;
const TAIL: usize = 2 * WORD;
const RECORD_HEAD: usize = 3 * WORD;

/// Loads an image file for `board`, and answers the number of its records.
///
/// # Errors
///
/// Refused by 1; then by the file's first offence, 9, 10 or 11; then by 12.
pub fn load(board: u16, memory: &mut [u16], file: &[u8]) -> Result<usize, Refusal> {
    check_length(memory)?;
    let records = check(board, memory.len(), file)?;
    let mut rest = Rest(&file[HEAD..]);
    for _ in 0..records {
        let record = rest.record()?;
        load_words(memory, record.address, record.words);
    }
    Ok(records)
}

/// Tests a file from its start to its end, the sum last, and counts its records.
fn check(board: u16, length: usize, file: &[u8]) -> Result<usize, Refusal> {
    let mut rest = Rest(file);
    if rest.mark()? != ID {
        return Err(Refusal::MalformedImage);
    }
    if rest.word()? != board {
        return Err(Refusal::WrongBoard);
    }
    let mut sum = board;
    let mut records = 0;
    while rest.0.starts_with(AT) {
        let record = rest.record()?;
        check_inside(length, record.address, record.words.len() / WORD)?;
        sum = sum.wrapping_add(record.sum());
        records += 1;
    }
    if rest.mark()? != OK {
        return Err(Refusal::MalformedImage);
    }
    let expected = rest.word()?;
    if !rest.0.is_empty() {
        return Err(Refusal::MalformedImage);
    }
    if sum == expected { Ok(records) } else { Err(Refusal::SumDiffers) }
}

/// What of a file is still to be read.
struct Rest<'a>(&'a [u8]);

struct Record<'a> {
    address: u16,
    words: &'a [u8],
}

impl<'a> Rest<'a> {
    fn mark(&mut self) -> Result<&'a [u8; WORD], Refusal> {
        let (taken, rest) = self.0.split_first_chunk().ok_or(Refusal::MalformedImage)?;
        self.0 = rest;
        Ok(taken)
    }

    fn word(&mut self) -> Result<u16, Refusal> {
        self.mark().map(|bytes| u16::from_be_bytes(*bytes))
    }

    /// A record whose mark is known to be there.
    fn record(&mut self) -> Result<Record<'a>, Refusal> {
        self.mark()?;
        let address = self.word()?;
        let count = usize::from(self.word()?);
        if !(1..=RECORD_WORDS).contains(&count) {
            return Err(Refusal::MalformedImage);
        }
        let (words, rest) = self.0.split_at_checked(WORD * count).ok_or(Refusal::MalformedImage)?;
        self.0 = rest;
        Ok(Record { address, words })
    }
}

impl Record<'_> {
    fn sum(&self) -> u16 {
        let count = (self.words.len() / WORD) as u16;
        words(self.words).fold(self.address.wrapping_add(count), u16::wrapping_add)
    }
}

/// Writes the words `first..=last` as an image file for `board`, and answers its length.
///
/// # Errors
///
/// Refused by 1, 7, 11 and 13, in this order.
pub fn write(board: u16, memory: &[u16], first: u16, last: u16, room: &mut [u8]) -> Result<usize, Refusal> {
    let region = written_region(memory, first, last)?;
    let length = HEAD + TAIL + WORD * region.len() + RECORD_HEAD * region.len().div_ceil(RECORD_WORDS);
    let mut room = Room(room.get_mut(..length).ok_or(Refusal::RoomTooSmall)?);
    let mut sum = board;
    room.put(ID);
    room.put_words(&[board]);
    let mut address = first;
    for words in region.chunks(RECORD_WORDS) {
        let count = words.len() as u16;
        room.put(AT);
        room.put_words(&[address, count]);
        sum = room.put_words(words).wrapping_add(sum).wrapping_add(address).wrapping_add(count);
        address = address.wrapping_add(count);
    }
    room.put(OK);
    room.put_words(&[sum]);
    Ok(length)
}
