//! The workloads of reached addresses: sets that are built, a node being an address with the D that it is reached with, and regions whose
//! addresses are all members of a set, or none.

use crate::measured::{Measured, digest, time_of};
use crate::programs::{BOARD, made_up_code, made_up_words};
use crate::workloads::{ALL_RAM, LIMIT};
use cp1610::{LONGEST_MEMORY, MOST_ENTRIES, ReachedSet, SET_WORDS};
use differential::Kit;
use std::hint::black_box;

const NOP: u16 = 0x034;

/// BEQ to the address that is as far forward as backward.
const FAR_FORK: [u16; 2] = [0x204, 0x7FFE];

/// B to the instruction before it.
const B_BACK: [u16; 2] = [0x220, 0x0003];

/// How often a small set is built, so that its time can be taken.
const CALLS: u64 = 16;

/// Builds the set of a memory so many times. Its nodes count for each call.
fn build<K: Kit>(memory: &[u16], entries: &[u16], calls: u64) -> Measured {
    let (board, mut set) = (K::board(ALL_RAM), ReachedSet::new());
    let mut reached = None;
    let time = time_of(|| {
        for _ in 0..calls {
            reached = K::reach(memory, &board, black_box(entries), &mut set).ok();
        }
    });
    let nodes = set.addresses(false).count() + set.addresses(true).count();
    Measured { units: calls * nodes as u64, time, digest: digest((set, format!("{reached:?}"))) }
}

/// The first words of made-up code, from an entry that two thirds of them are reached from, however many they are.
pub fn code<K: Kit, const WORDS: usize>() -> Measured {
    build::<K>(&made_up_code()[..WORDS], &[0x0110], if WORDS < LONGEST_MEMORY { CALLS } else { 1 })
}

/// All of it from as many entries as can be.
pub fn code_from_most<K: Kit>() -> Measured {
    let entries: [u16; MOST_ENTRIES] = std::array::from_fn(|n| (n * LONGEST_MEMORY / MOST_ENTRIES) as u16);
    build::<K>(&made_up_code(), &entries, 1)
}

/// One path through all addresses.
pub fn line<K: Kit>() -> Measured {
    build::<K>(&[NOP; LONGEST_MEMORY], &[0], 1)
}

/// One path through every second address, the highest first.
pub fn backward<K: Kit>() -> Measured {
    build::<K>(&B_BACK.repeat(LONGEST_MEMORY / 2), &[u16::MAX - 1], 1)
}

/// A fork at every second address: half of them are reached long before they are looked at.
pub fn forks<K: Kit>() -> Measured {
    build::<K>(&FAR_FORK.repeat(LONGEST_MEMORY / 2), &[0], 1)
}

/// A sample image from its first instruction.
fn sample<K: Kit>(image: &[u8]) -> Measured {
    let mut memory = vec![0; LONGEST_MEMORY];
    handwritten::load(BOARD, &mut memory, image).expect("the image is good");
    build::<K>(&memory, &[0x5000], CALLS)
}

pub fn game<K: Kit>() -> Measured {
    sample::<K>(include_bytes!("../../../samples/game.img"))
}

pub fn tables<K: Kit>() -> Measured {
    sample::<K>(include_bytes!("../../../samples/tables.img"))
}

/// A region of the made-up words, with a set of these words throughout.
fn region<K: Kit>(word: u64) -> Measured {
    let (memory, board) = (made_up_words(), K::board(ALL_RAM));
    let set = ReachedSet::from_words(&[word; SET_WORDS], &[word; SET_WORDS]);
    let mut found = None;
    let time = time_of(|| found = K::region_reached(&memory, &board, 0, u16::MAX, black_box(LIMIT), &set).ok());
    Measured { units: LONGEST_MEMORY as u64, time, digest: digest(format!("{found:?}")) }
}

pub fn members<K: Kit>() -> Measured {
    region::<K>(u64::MAX)
}

pub fn non_members<K: Kit>() -> Measured {
    region::<K>(0)
}
