//! Maps, as the C interface takes them and as the hand-written kit does.

use crate::random::Random;
use crate::twin::Twin;
use cp1610::{Kind, MOST_RANGES, Range};
use handwritten::Board;
use std::fmt;

const RANGE_WORDS: usize = 3;
const KINDS: [Kind; 3] = [Kind::Rom, Kind::Ram16, Kind::Ram8];

/// What a map says of an address.
#[derive(Clone, Copy, Debug, PartialEq, Eq)]
pub enum Part {
    Rom,
    Ram16,
    Ram8,
    Empty,
}

/// The words of a map, and the board that they stand for.
pub struct Map {
    words: Twin<u16>,
    ranges: Vec<Range>,
    /// None where the words are no map.
    board: Option<Board>,
}

impl Map {
    fn of(random: &mut Random, words: &[u16]) -> Map {
        let ranges = ranges_of(words);
        let board = ranges.as_deref().map(Board::new);
        Map { words: Twin::of(random, words), ranges: ranges.unwrap_or_default(), board }
    }

    /// A map that no call refuses. `address` draws an address near the memory.
    pub fn good(random: &mut Random, address: impl Fn(&mut Random) -> u16) -> Map {
        let words = words_of(&any_ranges(random, address));
        Map::of(random, &words)
    }

    /// A map that is refused by 14, or that is none; now and then it is both, or good.
    pub fn wrong(random: &mut Random, address: impl Fn(&mut Random) -> u16) -> Map {
        let mut ranges = any_ranges(random, &address);
        match random.below(4) {
            0 => ranges.resize(MOST_RANGES + 1, any_range(random, &address)),
            1 => reverse_one(random, &mut ranges),
            _ => {}
        }
        let mut words = words_of(&ranges);
        match random.below(4) {
            0 => words.extend((0..random.within(1..=2)).map(|_| random.word())),
            1 => spoil_a_kind(random, &mut words),
            _ => {}
        }
        Map::of(random, &words)
    }

    /// What the proved core is lent.
    pub fn words(&self) -> &[u16] {
        self.words.items()
    }

    /// What the hand-written kit is lent.
    pub fn board(&self) -> Option<&Board> {
        self.board.as_ref()
    }

    /// The ranges, or none where the words are no map.
    pub fn ranges(&self) -> &[Range] {
        &self.ranges
    }

    /// "first match deciding, unmatched words empty"
    pub fn part_at(&self, at: u16) -> Part {
        match self.ranges.iter().find(|range| range.first <= at && at <= range.last).map(|range| range.kind) {
            Some(Kind::Ram16) => Part::Ram16,
            Some(Kind::Ram8) => Part::Ram8,
            Some(_) => Part::Rom,
            None => Part::Empty,
        }
    }

    /// Panics where a call changed the map.
    pub fn assert_equal(&self, call: &str) {
        self.words.assert_equal(call, "map");
    }
}

impl fmt::Display for Map {
    fn fmt(&self, f: &mut fmt::Formatter<'_>) -> fmt::Result {
        write!(f, "under the map {:04X?}", self.words())
    }
}

/// The ranges of a map: none where its length is no multiple of 3, or where one of its first 16 ranges has a kind above 2. What kind
/// the others have is all the same, as such a map is refused.
fn ranges_of(words: &[u16]) -> Option<Vec<Range>> {
    let (ranges, rest) = words.as_chunks::<RANGE_WORDS>();
    let range = |(n, &[first, last, kind]): (usize, &[u16; RANGE_WORDS])| {
        let known = KINDS.get(usize::from(kind)).copied();
        Some(Range { first, last, kind: if n < MOST_RANGES { known? } else { Kind::Rom } })
    };
    if rest.is_empty() { ranges.iter().enumerate().map(range).collect() } else { None }
}

fn words_of(ranges: &[Range]) -> Vec<u16> {
    ranges.iter().flat_map(|range| [range.first, range.last, range.kind as u16]).collect()
}

/// A word, some words, or all that lies between two addresses.
fn any_range(random: &mut Random, address: &impl Fn(&mut Random) -> u16) -> Range {
    let from = address(random);
    let to = match random.below(4) {
        0 => from,
        1 => from.saturating_add(random.below(64) as u16),
        _ => address(random),
    };
    Range { first: from.min(to), last: from.max(to), kind: random.pick(&KINDS) }
}

/// Mostly all-RAM, or some ranges before one over all addresses, so that instructions are met; else up to 16 ranges, or none.
fn any_ranges(random: &mut Random, address: impl Fn(&mut Random) -> u16) -> Vec<Range> {
    let count = match random.below(8) {
        0 => 0,
        1 => MOST_RANGES,
        _ => random.size_below(MOST_RANGES),
    };
    let mut ranges: Vec<Range> = (0..count).map(|_| any_range(random, &address)).collect();
    match random.below(4) {
        0 => ranges = vec![Range::ALL_RAM],
        1 | 2 if count < MOST_RANGES => ranges.push(Range { kind: random.pick(&KINDS), ..Range::ALL_RAM }),
        _ => {}
    }
    ranges
}

/// Exchanges the ends of a range, which is then bad unless it is one word.
fn reverse_one(random: &mut Random, ranges: &mut [Range]) {
    if !ranges.is_empty() {
        let range = &mut ranges[random.size_below(ranges.len())];
        (range.first, range.last) = (range.last, range.first);
    }
}

fn spoil_a_kind(random: &mut Random, words: &mut [u16]) {
    let ranges = words.as_chunks_mut::<RANGE_WORDS>().0;
    if !ranges.is_empty() {
        ranges[random.size_below(ranges.len())][2] = random.word().max(KINDS.len() as u16);
    }
}
