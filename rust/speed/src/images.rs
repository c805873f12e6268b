//! The workloads of images: a whole memory as one file and as files of fewer words, each in full records.

use crate::measured::{Measured, digest, time_of};
use crate::programs::{BOARD, made_up_words, regions};
use cp1610::{LONGEST_MEMORY, RECORD_WORDS};
use differential::Kit;
use differential::images::length_of;

/// The ends of each region of so many words in a whole memory, and a room for its file.
fn rooms(words: usize) -> Vec<(u16, u16, Vec<u8>)> {
    regions(words, &vec![0; length_of(words, RECORD_WORDS)])
}

pub fn write<K: Kit, const WORDS: usize>() -> Measured {
    let from = made_up_words();
    let mut rooms = rooms(WORDS);
    let mut length = 0;
    let time = time_of(|| {
        for (first, last, room) in &mut rooms {
            length += K::write(BOARD, &from, *first, *last, room).unwrap_or(0);
        }
    });
    Measured { units: LONGEST_MEMORY as u64, time, digest: digest((length, rooms)) }
}

pub fn load<K: Kit, const WORDS: usize>() -> Measured {
    let from = made_up_words();
    let mut files = rooms(WORDS);
    for (first, last, file) in &mut files {
        handwritten::write(BOARD, &from, *first, *last, file).expect("the room is large enough");
    }
    let mut memory = vec![0; LONGEST_MEMORY];
    let mut records = 0;
    let time = time_of(|| {
        for (_, _, file) in &files {
            records += K::load(BOARD, &mut memory, file).unwrap_or(0);
        }
    });
    Measured { units: LONGEST_MEMORY as u64, time, digest: digest((records, memory)) }
}

/// Files of 16 words each, written and loaded in turn: what a program that packs small files pays, and a row that older figures have.
pub fn write_and_load<K: Kit>() -> Measured {
    const WORDS: u16 = 16;
    const FILES: u16 = 1_024;
    let words = made_up_words();
    let mut memory = vec![0; LONGEST_MEMORY];
    let mut room = [0; length_of(WORDS as usize, RECORD_WORDS)];
    let mut loaded = 0;
    let time = time_of(|| {
        for n in 0..FILES {
            let first = n * WORDS;
            let length = K::write(BOARD, &words, first, first + WORDS - 1, &mut room).unwrap_or(0);
            loaded += K::load(BOARD, &mut memory, &room[..length]).unwrap_or(0);
        }
    });
    Measured { units: FILES.into(), time, digest: digest((loaded, memory)) }
}
