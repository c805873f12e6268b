//! A memory, a map and a machine that a number of calls are made on.

use crate::code::any_code;
use crate::map::{Map, Part};
use crate::random::Random;
use crate::tally::Tally;
use crate::twin::Twin;
use cp1610::{HIGHEST_LIMIT, LONGEST_MEMORY, Mark, STATE_WORDS, StateWords};
use std::rc::Rc;

/// A memory for each kit, the map over it, and the words of the machine on it.
pub struct Scene {
    pub memory: Twin<u16>,
    map: Rc<Map>,
    pub state: StateWords,
}

impl Scene {
    pub fn new(random: &mut Random) -> Scene {
        let length = any_length(random);
        let words = any_words(random, length);
        let map = Map::good(random, |random| any_address(random, length));
        Scene { memory: Twin::of(random, &words), map: map.into(), state: any_state(random, length) }
    }

    /// The map that a call is lent, counted: the scene's, and now and then a wrong one.
    pub fn lent_map(&self, random: &mut Random, tally: &mut Tally) -> Rc<Map> {
        let map = if random.one_in(32) {
            Map::wrong(random, |random| self.address(random)).into()
        } else {
            Rc::clone(&self.map)
        };
        tally.count_map(&map);
        map
    }

    /// An address in the memory or not far past it, now and then anywhere.
    pub fn address(&self, random: &mut Random) -> u16 {
        any_address(random, self.memory.len())
    }

    /// A region that is to be written: all of the memory or some of it, past it, or with the first address above the last.
    pub fn region(&self, random: &mut Random) -> (u16, u16) {
        let first = self.address(random);
        let memory_last = (self.memory.len() as u16).wrapping_sub(1);
        match random.below(16) {
            0 | 1 => (first, self.address(random)),
            2 | 3 => (first, memory_last),
            4 => (0, memory_last),
            _ => (first, first.saturating_add(random.below(8) as u16)),
        }
    }

    /// The word at an address, as a step reads it under a map.
    pub fn word_at(&self, map: &Map, at: u16) -> u16 {
        match self.memory.items().get(usize::from(at)) {
            Some(word) if map.part_at(at) != Part::Empty => *word,
            _ => 0xFFFF,
        }
    }

    /// Whether an address is past the memory.
    pub fn is_past(&self, at: u16) -> bool {
        usize::from(at) >= self.memory.len()
    }

    /// Whether a branch by `FAR` stands at an address.
    pub fn is_far_branch(&self, map: &Map, at: u16) -> bool {
        is_far_branch(&[self.word_at(map, at), self.word_at(map, at.wrapping_add(1))])
    }

    /// A machine goes on from where a call left it; now and then, and where it halted, it starts from anywhere.
    pub fn continue_from(&mut self, random: &mut Random, state: &[u16]) {
        let halted = state[Mark::Halted as usize] != 0;
        if random.one_in(if halted { 2 } else { 12 }) {
            self.state = any_state(random, self.memory.len());
        } else {
            self.state.copy_from_slice(&state[..STATE_WORDS]);
        }
    }
}

/// Mostly short, so that reads and stores pass the end; the longest ones are tried on both sides of the edge.
fn any_length(random: &mut Random) -> usize {
    match random.below(32) {
        0 => LONGEST_MEMORY - 1,
        1 | 2 => LONGEST_MEMORY,
        3 => LONGEST_MEMORY + 1,
        4..=6 => random.size_below(4),
        7..=16 => random.size_below(64),
        _ => random.size_below(2_048),
    }
}

fn any_words(random: &mut Random, length: usize) -> Vec<u16> {
    let only_opcodes = random.one_in(2);
    let mask = if only_opcodes { 0x3FF } else { 0xFFFF };
    let mut words: Vec<u16> =
        if random.one_in(3) { any_code(random, length) } else { (0..length).map(|_| random.word() & mask).collect() };
    for _ in 0..random.size_below(1 + length.min(2_048) / 8) {
        let sown = any_rare(random);
        sow(random, &mut words, &sown);
    }
    if random.one_in(8) {
        let sown = any_unheard(random, LONGEST_STRETCH);
        sow(random, &mut words, &sown);
    }
    words
}

/// One of the things that chance alone makes too seldom: HLT, the unspecified forms, a branch by a displacement at an edge, a stretch of
/// unheard rows.
fn any_rare(random: &mut Random) -> Vec<u16> {
    match random.below(5) {
        0 => vec![0x000],
        1 => vec![0x004, random.word() | 3],
        2 => vec![0x001, 0x2B0 + 0x40 * random.below(6) as u16 + random.below(8) as u16],
        3 => vec![any_branch(random), random.pick(&DISPLACEMENTS)],
        _ => any_unheard(random, 30),
    }
}

/// So many rows that at 4 cycles each they are above the highest limit.
const LONGEST_STRETCH: u64 = HIGHEST_LIMIT as u64 / 4 + 100;

fn any_unheard(random: &mut Random, rows: u64) -> Vec<u16> {
    (0..random.below(rows)).map(|_| random.pick(&[0x002, 0x003, 0x006, 0x040, 0x048, 0x279])).collect()
}

/// Puts the words somewhere, as far as there is room for them.
fn sow(random: &mut Random, words: &mut [u16], sown: &[u16]) {
    if !words.is_empty() {
        let at = random.size_below(words.len());
        for (place, word) in words[at..].iter_mut().zip(sown) {
            *place = *word;
        }
    }
}

/// The displacement that leads as far forward as backward.
pub const FAR: u16 = 0x8000;

/// Displacements at the edges, and around the one that leads farthest.
pub const DISPLACEMENTS: [u16; 6] = [0x0000, 0x0001, FAR - 1, FAR, FAR + 1, 0xFFFF];

/// A branch's opcode.
pub fn any_branch(random: &mut Random) -> u16 {
    0x200 + random.below(0x40) as u16
}

/// Whether the words start with a branch by `FAR`.
pub fn is_far_branch(words: &[u16]) -> bool {
    matches!(words, [word, FAR, ..] if (0x200..0x240).contains(&(word & 0x3FF)))
}

/// An address in a memory of this length or not far past it, now and then anywhere.
pub fn any_address(random: &mut Random, length: usize) -> u16 {
    match random.below(8) {
        0 => random.word(),
        1 => (random.below(5) as u16).wrapping_sub(2),
        _ => random.below(length as u64 + 2) as u16,
    }
}

/// Registers that mostly point into the memory; marks of 0, of 1 and of any other word.
fn any_state(random: &mut Random, length: usize) -> StateWords {
    let mut state: StateWords =
        std::array::from_fn(|n| if n < 8 { any_address(random, length) } else { any_mark(random) });
    if !random.one_in(64) {
        state[Mark::Halted as usize] = 0;
    }
    state
}

fn any_mark(random: &mut Random) -> u16 {
    if random.one_in(4) { random.word() } else { random.below(2) as u16 }
}
