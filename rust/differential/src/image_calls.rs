//! The loader, on good image files and on damaged ones, and the writer.

use crate::damage::damage;
use crate::images::{ImageFile, OLD_RECORD_WORDS, length_of};
use crate::random::Random;
use crate::reference;
use crate::scene::Scene;
use crate::tally::{Occasion, Tally};
use crate::twin::{Twin, any_file_room};
use cp1610::{LONGEST_MEMORY, RECORD_WORDS, Refusal, calls};
use std::ops::RangeInclusive;

/// More than a few records, up to as many as a file of a whole memory had up to interface 5.
const MANY_RECORDS: RangeInclusive<u32> = 4..=(LONGEST_MEMORY / OLD_RECORD_WORDS) as u32;

fn any_record_count(random: &mut Random) -> u32 {
    if random.one_in(16) { random.within(MANY_RECORDS) } else { random.within(0..=MANY_RECORDS.start() - 1) }
}

/// How many words a record for a memory of this length has, on both sides of the edges where it may be refused.
fn any_word_count(random: &mut Random, length: usize, may_be_refused: bool) -> usize {
    let longest = if may_be_refused { RECORD_WORDS } else { RECORD_WORDS.min(length.max(1)) };
    match random.below(32) {
        0 => longest,
        1 => 1 + random.size_below(longest),
        2 if may_be_refused => 0,
        3 if may_be_refused => RECORD_WORDS + 1,
        _ => 1 + random.size_below(4),
    }
}

/// A file, and how many words each of its records has.
struct File {
    bytes: Vec<u8>,
    counts: Vec<usize>,
}

/// A file whose records mostly lie in a memory of this length, with a right sum.
fn any_file(random: &mut Random, board: u16, length: usize) -> File {
    let (mut file, mut counts) = (ImageFile::new(board), Vec::new());
    let may_be_refused = random.one_in(4);
    for _ in 0..any_record_count(random) {
        let count = any_word_count(random, length, may_be_refused);
        let space = (length + 1).saturating_sub(count);
        let is_anywhere = may_be_refused && random.one_in(4);
        let address = if is_anywhere { random.word() } else { random.size_below(space.max(1)) as u16 };
        let words: Vec<u16> = (0..count).map(|_| random.word()).collect();
        file.record(address, &words);
        counts.push(count);
    }
    File { bytes: file.finish(), counts }
}

/// What stands in marks, and in the high bytes of counts.
const BYTES: &[u8] = b"IDATOK\x00\x04\x10";

/// A board's number; few, so that two are often equal.
fn any_board(random: &mut Random) -> u16 {
    random.below(4) as u16
}

pub(crate) fn load(random: &mut Random, scene: &mut Scene, tally: &mut Tally) {
    let board = any_board(random);
    let named = if random.one_in(8) { any_board(random) } else { board };
    let File { mut bytes, counts } = any_file(random, named, scene.memory.len());
    let is_damaged = random.one_in(2);
    if is_damaged {
        damage(random, &mut bytes, BYTES);
    }
    let mut file = Twin::of(random, &bytes);
    let ours = calls::load(board, scene.memory.ours(), file.ours());
    let theirs = reference::load(board, scene.memory.theirs(), file.theirs());
    let call = format!("load for board {board} of {} bytes, {:02X?} ..", file.len(), &bytes[..file.len().min(SHOWN)]);
    assert_eq!(ours, theirs, "{call}");
    scene.memory.assert_equal(&call, "memory");
    file.assert_equal(&call, "file");
    tally.count("load", ours, || match ours as u32 {
        0 => "no records",
        1 => "1 record",
        _ => "records",
    });
    if !is_damaged {
        count_rare_load(&counts, ours, tally);
    }
}

/// How many bytes of a file are shown where it is not loaded alike; the seed makes all of them again.
const SHOWN: usize = 64;

/// What is rare of a file that is not damaged. Of such a one only a count is malformed.
fn count_rare_load(counts: &[usize], answer: u64, tally: &mut Tally) {
    let is_loaded = answer >> 32 != 0;
    let is_malformed = answer == Refusal::MalformedImage.number().into();
    let longest = counts.iter().copied().max().unwrap_or(0);
    tally.count_met([
        (Occasion::ManyRecordsLoaded, is_loaded && MANY_RECORDS.contains(&(counts.len() as u32))),
        (Occasion::LongRecordLoaded, is_loaded && longest > OLD_RECORD_WORDS),
        (Occasion::LongestRecordLoaded, is_loaded && longest == RECORD_WORDS),
        (Occasion::LongerRecordRefused, is_malformed && longest > RECORD_WORDS && !counts.contains(&0)),
    ]);
}

/// A region that is to be written, now and then one of some full records or a word more or less, where the memory has so many.
fn any_region(random: &mut Random, scene: &Scene) -> (u16, u16) {
    let full = random.within(1..=3) as usize * RECORD_WORDS;
    let words = full - 1 + random.size_below(3);
    match scene.memory.len().min(LONGEST_MEMORY).checked_sub(words) {
        Some(space) if random.one_in(4) => {
            let first = random.size_below(space + 1);
            (first as u16, (first + words - 1) as u16)
        }
        _ => scene.region(random),
    }
}

pub(crate) fn write(random: &mut Random, scene: &mut Scene, tally: &mut Tally) {
    let (first, last) = any_region(random, scene);
    let words = usize::from(last.saturating_sub(first)) + 1;
    let board = any_board(random);
    let length = any_file_room(random, length_of(words, RECORD_WORDS));
    let mut room = Twin::any(random, length);
    let ours = calls::write(board, scene.memory.ours(), first, last, room.ours());
    let theirs = reference::write(board, scene.memory.theirs(), first, last, room.theirs());
    let call = format!("write of {first:04X}..{last:04X} into {length} bytes");
    assert_eq!(ours, theirs, "{call}");
    room.assert_equal(&call, "room");
    scene.memory.assert_equal(&call, "memory");
    let records = words.div_ceil(RECORD_WORDS);
    tally.count("write", ours, || if records == 1 { "1 record" } else { "records" });
    if ours >> 32 != 0 {
        count_rare_write(words, records, tally);
    }
}

/// What is rare of a region that was written.
fn count_rare_write(words: usize, records: usize, tally: &mut Tally) {
    tally.count_met([
        (Occasion::ManyRecordsWritten, MANY_RECORDS.contains(&(records as u32))),
        (Occasion::LongRecordWritten, records == 1 && words > OLD_RECORD_WORDS),
        (Occasion::LongestRecordWritten, words == RECORD_WORDS),
        (Occasion::FullRecordsWritten, records > 1 && words.is_multiple_of(RECORD_WORDS)),
        (Occasion::WordLeftWritten, records > 1 && words % RECORD_WORDS == 1),
    ]);
}
