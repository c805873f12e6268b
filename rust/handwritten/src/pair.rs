//! Pairs of a flat file of words and a mapping text: the reader and the writer.

use crate::bytes::{Room, WORD, load_words};
use crate::hex::{digits_of, word_of};
use crate::memory::{check_inside, check_length, written_region};
use cp1610::{CFG_ROOM, PairLengths, Refusal};

/// The first line of a text.
const SECTION: &[u8] = b"[mapping]\n";

/// What stands before each number of a mapping line, and what ends it: `$0000 - $0FFF = $5000`.
const MARKS: [&[u8]; 3] = [b"$", b" - $", b" = $"];
const END: &[u8] = b"\n";

/// The bytes of a mapping line, so that a line is taken with one look at what is left of the text.
const LENGTH: usize = CFG_ROOM - SECTION.len();

/// A mapping line: the words `first..=last` of the flat file go to memory from `target` on.
struct Line {
    first: u16,
    last: u16,
    target: u16,
}

/// Loads the words of a flat file to where a mapping text says, and answers the number of its lines.
///
/// # Errors
///
/// Refused by 1, 15, 16 and 11, in this order, each over all lines.
pub fn load_pair(memory: &mut [u16], bin: &[u8], cfg: &[u8]) -> Result<usize, Refusal> {
    check_length(memory)?;
    let lines = parse(cfg).ok_or(Refusal::MalformedMapping)?;
    if !bin.len().is_multiple_of(WORD) || lines.iter().any(|line| line.end() > bin.len()) {
        return Err(Refusal::MissingFileWords);
    }
    lines.iter().try_for_each(|line| check_inside(memory.len(), line.target, line.count()))?;
    for line in &lines {
        load_words(memory, line.target, &bin[line.start()..line.end()]);
    }
    Ok(lines.len())
}

/// "only `[mapping]` first, then empty lines and lines of just that form"
fn parse(cfg: &[u8]) -> Option<Vec<Line>> {
    let mut text = cfg.strip_prefix(SECTION)?;
    let mut lines = Vec::with_capacity(text.len() / LENGTH);
    while !text.is_empty() {
        if let Some(rest) = text.strip_prefix(END) {
            text = rest;
        } else {
            let (line, rest) = Line::parse(text)?;
            lines.push(line);
            text = rest;
        }
    }
    Some(lines)
}

impl Line {
    /// The line at the front of a text, and what is behind it.
    fn parse(text: &[u8]) -> Option<(Line, &[u8])> {
        let (line, rest) = text.split_first_chunk::<LENGTH>()?;
        let (first, line) = number(line, MARKS[0])?;
        let (last, line) = number(line, MARKS[1])?;
        let (target, line) = number(line, MARKS[2])?;
        (line == END && first <= last).then_some((Line { first, last, target }, rest))
    }

    fn count(&self) -> usize {
        usize::from(self.last - self.first) + 1
    }

    /// Where its bytes start in the flat file.
    fn start(&self) -> usize {
        WORD * usize::from(self.first)
    }

    /// Where they end.
    fn end(&self) -> usize {
        self.start() + WORD * self.count()
    }
}

/// The number behind a mark at the front of a text, and what is behind it.
#[inline(always)]
fn number<'a>(text: &'a [u8], mark: &[u8]) -> Option<(u16, &'a [u8])> {
    let (digits, rest) = text.strip_prefix(mark)?.split_first_chunk()?;
    Some((word_of(digits)?, rest))
}

/// Writes the words `first..=last` as a flat file and a text of one line, and answers the lengths of both.
///
/// # Errors
///
/// Refused by 1, 7, 11 and 13, in this order.
pub fn write_pair(
    memory: &[u16],
    first: u16,
    last: u16,
    bin: &mut [u8],
    cfg: &mut [u8],
) -> Result<PairLengths, Refusal> {
    let region = written_region(memory, first, last)?;
    let lengths = PairLengths { bin: WORD * region.len(), cfg: CFG_ROOM };
    let (Some(bin), Some(cfg)) = (bin.get_mut(..lengths.bin), cfg.get_mut(..lengths.cfg)) else {
        return Err(Refusal::RoomTooSmall);
    };
    Room(bin).put_words(region);
    let mut text = Room(cfg);
    text.put(SECTION);
    for (mark, number) in MARKS.into_iter().zip([0, last - first, first]) {
        text.put(mark);
        text.put(&digits_of(number));
    }
    text.put(END);
    Ok(lengths)
}
