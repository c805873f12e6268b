//! The outside vectors of `crates/test_vectors`, whose README says what a line is, on both kits.

use cp1610::{Event, LONGEST_MEMORY, Lines, Mark, Range, STATE_WORDS, StateWords, Step};
use differential::{Handwritten, Kit, Proved};

const VECTORS: &str = include_str!("../../../crates/test_vectors/stdin");

/// The file is not cut short.
const COUNT: usize = 3_927;

/// The flags, by their bits in a vector.
const FLAGS: [(Mark, u16); 4] = [(Mark::S, 0x80), (Mark::Z, 0x40), (Mark::O, 0x20), (Mark::C, 0x10)];

struct Vector {
    before: StateWords,
    reads: Vec<(u16, u16)>,
    after: StateWords,
    cycles: u32,
    stores: Vec<(u16, u16)>,
}

fn hex(text: &str) -> u16 {
    u16::from_str_radix(text, 16).expect("a hexadecimal number")
}

fn words(text: &str) -> Vec<(u16, u16)> {
    let pair = |word: &str| word.split_once('=').map(|(at, word)| (hex(at), hex(word))).expect("ADDRESS=WORD");
    text.split_whitespace().map(pair).collect()
}

/// The state's words of a vector's flags and registers.
fn state(fields: &[&str]) -> StateWords {
    let mut state = [0; STATE_WORDS];
    for (n, field) in fields[1..9].iter().enumerate() {
        state[n] = hex(field);
    }
    for (mark, bit) in FLAGS {
        state[mark as usize] = u16::from(hex(fields[0]) & bit != 0);
    }
    state[Mark::Level as usize] = 1;
    state
}

fn vector(line: &str) -> Vector {
    let parts: Vec<&str> = line.split('|').collect();
    let before: Vec<&str> = parts[0].split_whitespace().collect();
    let after: Vec<&str> = parts[2].split_whitespace().collect();
    let mut vector = Vector {
        before: state(&before[1..]),
        reads: words(parts[1]),
        after: state(&after),
        cycles: after[9].parse().expect("a decimal number"),
        stores: words(parts[3]),
    };
    vector.before[Mark::D as usize] = hex(before[0]);
    vector
}

/// A vector has no more of the state after the step than registers and flags.
fn shown(words: &StateWords) -> StateWords {
    let mut shown = *words;
    for mark in [Mark::I, Mark::D, Mark::Halted, Mark::Ready] {
        shown[mark as usize] = 0;
    }
    shown
}

fn check<K: Kit>() {
    let board = K::board(&[Range::ALL_RAM]);
    let (mut memory, mut expected) = (vec![0; LONGEST_MEMORY], vec![0; LONGEST_MEMORY]);
    for (n, line) in VECTORS.lines().enumerate() {
        let vector = vector(line);
        for &(at, word) in vector.reads.iter().chain(&vector.stores) {
            expected[usize::from(at)] = word;
        }
        for &(at, word) in &vector.reads {
            memory[usize::from(at)] = word;
        }
        let mut machine = K::from_words(&vector.before);
        let step = K::step(&mut machine, &mut memory, &board, Lines::QUIET);
        assert_eq!(step, Ok(Step { event: Event::Executed, cycles: vector.cycles }), "line {}: {line}", n + 1);
        assert_eq!(shown(&K::to_words(&machine)), vector.after, "line {}: {line}", n + 1);
        assert!(memory == expected, "memory of line {}: {line}", n + 1);
        for &(at, _) in vector.reads.iter().chain(&vector.stores) {
            (memory[usize::from(at)], expected[usize::from(at)]) = (0, 0);
        }
    }
    assert_eq!(VECTORS.lines().count(), COUNT);
}

#[test]
fn proved() {
    check::<Proved>();
}

#[test]
fn handwritten() {
    check::<Handwritten>();
}
