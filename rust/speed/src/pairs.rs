//! The workloads of pairs: a whole memory as one pair and as pairs of fewer words, each with a text of one line, and a text of many lines.

use crate::measured::{Measured, digest, time_of};
use crate::programs::{made_up_words, regions};
use cp1610::{CFG_ROOM, LONGEST_MEMORY};
use differential::Kit;

/// The bytes of a word.
const WORD: usize = 2;

/// The rooms of a pair.
#[derive(Clone, Hash)]
struct Pair {
    bin: Vec<u8>,
    cfg: [u8; CFG_ROOM],
}

/// The ends of each region of so many words in a whole memory, and rooms for its pair.
fn rooms(words: usize) -> Vec<(u16, u16, Pair)> {
    regions(words, &Pair { bin: vec![0; WORD * words], cfg: [0; CFG_ROOM] })
}

pub fn write<K: Kit, const WORDS: usize>() -> Measured {
    let from = made_up_words();
    let mut rooms = rooms(WORDS);
    let mut written = 0;
    let time = time_of(|| {
        for (first, last, pair) in &mut rooms {
            written +=
                K::write_pair(&from, *first, *last, &mut pair.bin, &mut pair.cfg).map_or(0, |lengths| lengths.bin);
        }
    });
    Measured { units: (written / WORD) as u64, time, digest: digest(rooms) }
}

pub fn load<K: Kit, const WORDS: usize>() -> Measured {
    let from = made_up_words();
    let mut pairs = rooms(WORDS);
    for (first, last, pair) in &mut pairs {
        handwritten::write_pair(&from, *first, *last, &mut pair.bin, &mut pair.cfg)
            .expect("the rooms are large enough");
    }
    let mut memory = vec![0; LONGEST_MEMORY];
    let mut lines = 0;
    let time = time_of(|| {
        for (_, _, pair) in &pairs {
            lines += K::load_pair(&mut memory, &pair.bin, &pair.cfg).unwrap_or(0);
        }
    });
    Measured { units: (lines * WORDS) as u64, time, digest: digest(memory) }
}

/// A text of many lines of one word each.
pub fn load_lines<K: Kit>() -> Measured {
    const LINES: usize = 4_096;
    let bin: Vec<u8> = made_up_words()[..LINES].iter().flat_map(|word| word.to_be_bytes()).collect();
    let mut cfg = "[mapping]\n".to_owned();
    for n in 0..LINES {
        cfg += &format!("${n:04X} - ${n:04X} = ${n:04X}\n");
    }
    let mut memory = vec![0; LONGEST_MEMORY];
    let mut lines = 0;
    let time = time_of(|| lines = K::load_pair(&mut memory, &bin, cfg.as_bytes()).unwrap_or(0));
    Measured { units: lines as u64, time, digest: digest(memory) }
}
