//! The lister, and the assembler on its lines and on damaged ones.

use crate::damage::damage;
use crate::random::Random;
use crate::reference;
use crate::scene::{DISPLACEMENTS, Scene, any_branch, is_far_branch};
use crate::tally::{Occasion, Tally};
use crate::twin::Twin;
use cp1610::{LINE_WORDS, TEXT_ROOM, calls};
use handwritten::Board;
use std::sync::LazyLock;

const LIST_WORDS: usize = 3;
const WORD_COUNTS: [&str; LINE_WORDS] = ["1 word", "2 words", "3 words"];

/// What stands in lines, and some of what does not.
const BYTES: &[u8] = b"0123456789ABCDEFGHIJLMNOPRSTUVWX@#$+-, \0\nabr\xA0";

/// D as the C interface takes it: anything but 0 is set.
fn any_d(random: &mut Random) -> u8 {
    match random.below(4) {
        0 | 1 => 0,
        2 => 1,
        _ => random.byte(),
    }
}

pub(crate) fn list(random: &mut Random, scene: &mut Scene, tally: &mut Tally) {
    let (address, d, map) = (scene.address(random), any_d(random), scene.lent_map(random, tally));
    let (mut text, mut out) = (Twin::room(random, TEXT_ROOM), Twin::room(random, LIST_WORDS));
    let ours = calls::list(scene.memory.ours(), map.words(), address, d, text.ours(), out.ours());
    let theirs = reference::list(scene.memory.theirs(), map.board(), address, d, text.theirs(), out.theirs());
    let word = scene.word_at(&map, address);
    let call = format!("list of {word:04X} at {address:04X} under D {d} {map}");
    assert_eq!(ours, theirs, "{call}");
    text.assert_equal(&call, "text");
    out.assert_equal(&call, "out");
    scene.memory.assert_equal(&call, "memory");
    map.assert_equal(&call);
    tally.count("list", ours, || WORD_COUNTS[out.items()[1] as usize - 1]);
    if ours >> 32 != 0 {
        tally.count_listed(word, d != 0);
        if scene.is_far_branch(&map, address) {
            tally.count_occasion(Occasion::FarBranchListed);
        }
    }
}

/// Words of an instruction. Jumps and branches, which have many forms and few opcodes, are met more often than by chance, and so
/// are displacements at the edges.
fn any_words(random: &mut Random) -> [u16; LINE_WORDS] {
    let [second, third] = [random.word(), random.word()];
    match random.below(8) {
        0 | 1 => [0x004, second, third],
        2 => [any_branch(random), second, third],
        3 => [any_branch(random), random.pick(&DISPLACEMENTS), third],
        _ => [random.word(), second, third],
    }
}

static ALL_RAM: LazyLock<Board> = LazyLock::new(Board::all_ram);

/// The line of random words, as the hand-written lister has it.
fn any_listed(random: &mut Random) -> Vec<u8> {
    let words = any_words(random);
    let mut text = vec![0; TEXT_ROOM];
    let listed = handwritten::list(&words, &ALL_RAM, 0, random.one_in(2), &mut text)
        .expect("memory and room are as they have to be");
    text.truncate(listed.length);
    text
}

/// A lister's line, perhaps damaged; the name of one with the operands of another; or bytes at random.
fn any_line(random: &mut Random) -> Vec<u8> {
    let mut line = any_listed(random);
    match random.below(8) {
        0..=3 => {}
        4..=5 => damage(random, &mut line, BYTES),
        6 => {
            let other = any_listed(random);
            let operands = other.iter().position(|byte| *byte == b' ').unwrap_or(other.len());
            line.truncate(line.iter().position(|byte| *byte == b' ').unwrap_or(line.len()));
            line.extend_from_slice(&other[operands..]);
        }
        _ => line = (0..random.below(24)).map(|_| random.pick(BYTES)).collect(),
    }
    line
}

pub(crate) fn assemble(random: &mut Random, _: &mut Scene, tally: &mut Tally) {
    let (line, d) = (any_line(random), any_d(random));
    let (mut line, mut words) = (Twin::of(random, &line), Twin::room(random, LINE_WORDS));
    let ours = calls::assemble(line.ours(), d, words.ours());
    let theirs = reference::assemble(line.theirs(), d, words.theirs());
    let call = format!("assemble of {:?} under D {d}", String::from_utf8_lossy(line.items()));
    assert_eq!(ours, theirs, "{call}");
    words.assert_equal(&call, "words");
    line.assert_equal(&call, "line");
    tally.count("assemble", ours, || WORD_COUNTS[ours as u32 as usize - 1]);
    if ours >> 32 != 0 {
        tally.count_assembled(words.items()[0]);
        if is_far_branch(words.items()) {
            tally.count_occasion(Occasion::FarBranchAssembled);
        }
    }
}
