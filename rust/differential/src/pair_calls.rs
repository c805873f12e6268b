//! The reader of pairs, on good flat files and mapping texts and on damaged ones, and the writer.

use crate::damage::damage;
use crate::random::Random;
use crate::reference;
use crate::scene::Scene;
use crate::tally::{Occasion, Tally};
use crate::twin::{Twin, any_file_room};
use cp1610::{CFG_ROOM, LONGEST_MEMORY, Refusal, calls};
use std::fmt;
use std::ops::{Range, RangeInclusive};

/// What the writer reports: both lengths.
const PAIR_WORDS: usize = 2;

/// The words that a flat file may have without one that no line can name.
const LONGEST_FILE: usize = 65_536;

/// More than a few lines.
const MANY_LINES: RangeInclusive<u32> = 4..=40;

/// What stands in mapping texts, and some of what does not.
const BYTES: &[u8] = b"0123456789ABCDEFGabcdef[]maping$-= \n\r\t;@\0\xA4";

/// A mapping line: the words `first..=last` of the flat file go to memory from `target` on.
#[derive(Clone, Copy)]
struct Line {
    first: u16,
    last: u16,
    target: u16,
}

impl Line {
    /// A line whose words are all there, and so is its target; none where file or memory has no words.
    fn good(random: &mut Random, words: usize, length: usize) -> Option<Line> {
        let (words, length) = (words.min(LONGEST_FILE), length.min(LONGEST_MEMORY));
        let most = words.min(length);
        if most == 0 {
            return None;
        }
        let count = if random.one_in(8) { most } else { 1 + random.size_below(most.min(8)) };
        let (first, target) = (any_place(random, words, count), any_place(random, length, count));
        Some(Line { first, last: first + (count - 1) as u16, target })
    }

    /// A line of few words anywhere.
    fn wild(random: &mut Random) -> Line {
        let first = random.below(4) as u16;
        Line { first, last: first + random.below(4) as u16, target: random.word() }
    }

    /// Makes a line, in most cases, one that is refused: by 15, by 16 or by 11, at the edge or anywhere.
    fn spoil(&mut self, random: &mut Random, words: usize, length: usize) {
        match random.below(6) {
            0 => (self.first, self.last) = (self.last, self.first),
            1 => self.first = self.last.saturating_add(1),
            2 => self.last = words.min(LONGEST_FILE - 1) as u16,
            3 => self.last = random.word(),
            4 => self.target = (length as u16).wrapping_sub(self.last.wrapping_sub(self.first)),
            _ => self.target = random.word(),
        }
    }

    /// The file words that it names; none where its first is above its last.
    fn words(&self) -> Range<usize> {
        self.first.into()..usize::from(self.last) + 1
    }

    /// The addresses that they go to.
    fn targets(&self) -> Range<usize> {
        let target = self.target.into();
        target..target + self.words().len()
    }
}

impl fmt::Display for Line {
    fn fmt(&self, f: &mut fmt::Formatter<'_>) -> fmt::Result {
        writeln!(f, "${:04X} - ${:04X} = ${:04X}", self.first, self.last, self.target)
    }
}

/// Where so many words start that end in a file or memory of this length, now and then with its last word.
fn any_place(random: &mut Random, length: usize, count: usize) -> u16 {
    let last = length - count;
    let place = if random.one_in(4) { last } else { random.size_below(last + 1) };
    place as u16
}

/// A flat file, and lines for its mapping text.
struct Pair {
    bin: Vec<u8>,
    lines: Vec<Line>,
}

/// How many words a flat file has for a memory of this length: mostly few; now and then none, as many as the memory, or all that
/// lines can name and more.
fn any_word_count(random: &mut Random, length: usize) -> usize {
    match random.below(64) {
        0 => LONGEST_FILE + random.size_below(4),
        1..=3 => length,
        4..=7 => 0,
        8..=15 => random.size_below(2_048),
        _ => random.size_below(64),
    }
}

fn any_line_count(random: &mut Random) -> u32 {
    if random.one_in(16) { random.within(MANY_LINES) } else { random.within(0..=MANY_LINES.start() - 1) }
}

/// A pair that is mostly good for a memory of this length.
fn any_pair(random: &mut Random, length: usize) -> Pair {
    let words = any_word_count(random, length);
    let may_be_refused = random.one_in(3);
    let mut bin: Vec<u8> = (0..2 * words).map(|_| random.byte()).collect();
    let mut lines = Vec::new();
    for _ in 0..any_line_count(random) {
        let good = Line::good(random, words, length);
        if may_be_refused && random.one_in(2) {
            let mut line = good.unwrap_or_else(|| Line::wild(random));
            line.spoil(random, words, length);
            lines.push(line);
        } else {
            lines.extend(good);
        }
    }
    match random.below(32) {
        0 => bin.push(random.byte()),
        1 => bin.truncate(bin.len().saturating_sub(1)),
        2 => bin.truncate(bin.len().saturating_sub(2)),
        _ => {}
    }
    Pair { bin, lines }
}

/// The lines' text, with empty lines in some.
fn any_text(random: &mut Random, lines: &[Line]) -> Vec<u8> {
    let empty_lines = if random.one_in(2) { 3 } else { 1 };
    let mut text = "[mapping]\n".to_owned();
    for line in lines {
        text += &"\n".repeat(random.size_below(empty_lines));
        text += &line.to_string();
    }
    text += &"\n".repeat(random.size_below(empty_lines));
    text.into_bytes()
}

/// Damages a text as a text of lines can be, or as any.
fn damage_text(random: &mut Random, text: &mut Vec<u8>) {
    let at = random.size_below(text.len());
    match random.below(12) {
        0 => text.insert(at, text[at]),
        1 => text.insert(0, b'\n'),
        2 => _ = text.pop(),
        3 => change_case(random, text),
        4..=6 => *text = with_other_lines(random, text),
        _ => damage(random, text, BYTES),
    }
}

/// Puts a letter, of which the first line has some, in the other case.
fn change_case(random: &mut Random, text: &mut [u8]) {
    let letters: Vec<usize> = (0..text.len()).filter(|at| text[*at].is_ascii_alphabetic()).collect();
    text[random.pick(&letters)] ^= b'a' ^ b'A';
}

/// The text with two lines exchanged, a line twice or missing, or a carriage return before one line feed or before each.
fn with_other_lines(random: &mut Random, text: &[u8]) -> Vec<u8> {
    let mut lines: Vec<&[u8]> = text.split_inclusive(|byte| *byte == b'\n').collect();
    let (a, b) = (random.size_below(lines.len()), random.size_below(lines.len()));
    match random.below(5) {
        0 => lines.swap(a, b),
        1 => lines.insert(a, lines[b]),
        2 => _ = lines.remove(a),
        3 => return with_returns(&lines, |n| n == a),
        _ => return with_returns(&lines, |_| true),
    }
    lines.concat()
}

fn with_returns(lines: &[&[u8]], is_meant: impl Fn(usize) -> bool) -> Vec<u8> {
    let mut text = Vec::new();
    for (n, line) in lines.iter().enumerate() {
        text.extend_from_slice(&line[..line.len() - 1]);
        text.extend_from_slice(if is_meant(n) { b"\r\n" } else { b"\n" });
    }
    text
}

pub(crate) fn load(random: &mut Random, scene: &mut Scene, tally: &mut Tally) {
    let pair = any_pair(random, scene.memory.len());
    let mut text = any_text(random, &pair.lines);
    let is_damaged = random.one_in(3);
    if is_damaged {
        damage_text(random, &mut text);
    }
    let (mut bin, mut cfg) = (Twin::of(random, &pair.bin), Twin::of(random, &text));
    let ours = calls::load_pair(scene.memory.ours(), bin.ours(), cfg.ours());
    let theirs = reference::load_pair(scene.memory.theirs(), bin.theirs(), cfg.theirs());
    let (words, shown) = (scene.memory.len(), String::from_utf8_lossy(&text));
    let call = format!("load_pair of {} bytes into {words} words by {shown:?}", bin.len());
    assert_eq!(ours, theirs, "{call}");
    scene.memory.assert_equal(&call, "memory");
    bin.assert_equal(&call, "bin");
    cfg.assert_equal(&call, "cfg");
    tally.count("load_pair", ours, || match ours as u32 {
        0 => "no lines",
        1 => "1 line",
        _ => "lines",
    });
    if !is_damaged {
        count_rare(&pair, &text, scene.memory.len(), ours, tally);
    }
}

/// What is rare of a pair whose text is not damaged.
fn count_rare(pair: &Pair, text: &[u8], length: usize, answer: u64, tally: &mut Tally) {
    let lines = &pair.lines;
    let is_loaded = answer >> 32 != 0;
    let is_refused_by = |refusal: Refusal| answer == refusal.number().into();
    let is_missing = |line: &Line| 2 * line.words().end > pair.bin.len();
    let overlaps = |n: usize| lines[..n].iter().any(|line| do_overlap(line.targets(), lines[n].targets()));
    tally.count_met([
        (Occasion::ManyLinesLoaded, is_loaded && MANY_LINES.contains(&(lines.len() as u32))),
        (Occasion::EmptyLineLoaded, is_loaded && text.windows(2).any(|bytes| bytes == b"\n\n")),
        (Occasion::TargetsOverlap, is_loaded && (0..lines.len()).any(overlaps)),
        (Occasion::LastWordLoaded, is_loaded && lines.iter().any(|line| line.targets().end == length)),
        (Occasion::LongestLineLoaded, is_loaded && lines.iter().any(|line| line.words().len() == LONGEST_FILE)),
        (Occasion::LongFileLoaded, is_loaded && pair.bin.len() > 2 * LONGEST_FILE),
        (Occasion::MalformedFirst, is_refused_by(Refusal::MalformedMapping) && lines.iter().any(is_missing)),
        (
            Occasion::MissingFirst,
            is_refused_by(Refusal::MissingFileWords) && lines.iter().any(|line| line.targets().end > length),
        ),
    ]);
}

fn do_overlap(a: Range<usize>, b: Range<usize>) -> bool {
    a.start < b.end && b.start < a.end
}

pub(crate) fn write(random: &mut Random, scene: &mut Scene, tally: &mut Tally) {
    let (first, last) = scene.region(random);
    let words = usize::from(last.saturating_sub(first)) + 1;
    let (bin_length, cfg_length) = (any_file_room(random, 2 * words), any_file_room(random, CFG_ROOM));
    let (mut bin, mut cfg) = (Twin::any(random, bin_length), Twin::any(random, cfg_length));
    let mut out = Twin::room(random, PAIR_WORDS);
    let ours = calls::write_pair(scene.memory.ours(), first, last, bin.ours(), cfg.ours(), out.ours());
    let theirs = reference::write_pair(scene.memory.theirs(), first, last, bin.theirs(), cfg.theirs(), out.theirs());
    let call = format!("write_pair of {first:04X}..{last:04X} into {bin_length} and {cfg_length} bytes");
    assert_eq!(ours, theirs, "{call}");
    bin.assert_equal(&call, "bin");
    cfg.assert_equal(&call, "cfg");
    out.assert_equal(&call, "out");
    scene.memory.assert_equal(&call, "memory");
    tally.count("write_pair", ours, || "written");
    if ours >> 32 != 0 && words == LONGEST_MEMORY {
        tally.count_occasion(Occasion::WholeMemoryWritten);
    }
}
