//! Reset, steps and runs.

use crate::map::{Map, Part};
use crate::random::Random;
use crate::reference;
use crate::scene::Scene;
use crate::tally::{Occasion, Tally};
use crate::twin::{Twin, any_length};
use cp1610::{HIGHEST_BUDGET, STATE_WORDS, calls};
use std::ops::RangeInclusive;

const RUN_WORDS: usize = 3;
const R6: usize = 6;
const R7: usize = 7;

/// The cycles of a branch that is taken.
const TAKEN: u32 = 9;

/// The scene's machine, in a buffer that may be longer than a state, or shorter.
fn lent_state(random: &mut Random, scene: &Scene) -> Twin<u16> {
    let mut words = scene.state.to_vec();
    words.resize_with(any_length(random, STATE_WORDS), || random.word());
    Twin::of(random, &words)
}

/// BUSRQ and INTRM mostly high, so that instructions are met; the bits that are ignored are random.
fn any_lines(random: &mut Random) -> u32 {
    let mut lines = random.any() as u32;
    if !random.one_in(3) {
        lines |= 1;
    }
    if !random.one_in(4) {
        lines |= 2;
    }
    lines
}

/// Budgets that are neither few cycles nor at the edge of the highest.
const LONG_RUNS: RangeInclusive<u32> = 5_000..=HIGHEST_BUDGET - 3;

/// Mostly few cycles, so that many runs end near a halt or an unspecified form; some of any length; and some near the highest
/// budget, on both sides.
fn any_budget(random: &mut Random) -> u32 {
    match random.below(512) {
        0 => random.within(LONG_RUNS.end() + 1..=HIGHEST_BUDGET),
        1..=8 => HIGHEST_BUDGET + 1,
        9..=16 => (HIGHEST_BUDGET + 1).saturating_add(random.any() as u32),
        17..=80 => random.within(0..=LONG_RUNS.start() - 1),
        81..=96 => random.within(LONG_RUNS),
        _ => random.within(0..=59),
    }
}

pub(crate) fn reset(random: &mut Random, scene: &mut Scene, tally: &mut Tally) {
    let mut state = lent_state(random, scene);
    let ours = calls::reset(state.ours());
    let theirs = reference::reset(state.theirs());
    assert_eq!(ours, theirs, "reset of {} words", state.len());
    state.assert_equal("reset", "state");
    tally.count("reset", ours, || "done");
}

pub(crate) fn step(random: &mut Random, scene: &mut Scene, tally: &mut Tally) {
    let mut state = lent_state(random, scene);
    let (lines, map) = (any_lines(random), scene.lent_map(random, tally));
    let word = scene.word_at(&map, scene.state[R7]);
    let ours = calls::step(state.ours(), scene.memory.ours(), map.words(), lines);
    let theirs = reference::step(state.theirs(), scene.memory.theirs(), map.board(), lines);
    let call = format!("step of {word:04X} from {:04X?} with lines {lines:08X} {map}", scene.state);
    assert_eq!(ours, theirs, "{call}");
    state.assert_equal(&call, "state");
    scene.memory.assert_equal(&call, "memory");
    map.assert_equal(&call);
    tally.count("step", ours, || match ours >> 32 {
        3 => "grant",
        4 => "interrupt",
        _ => "instruction",
    });
    match ours >> 32 {
        4 => count_push(scene, &map, tally),
        5 => {
            tally.count_executed(word);
            count_rare(scene, &map, ours as u32 == TAKEN, tally);
        }
        _ => {}
    }
    if state.len() >= STATE_WORDS {
        scene.continue_from(random, state.items());
    }
}

/// What is rare of an instruction that was executed from the scene's state.
fn count_rare(scene: &Scene, map: &Map, is_taken: bool, tally: &mut Tally) {
    let at = scene.state[R7];
    if is_taken && scene.is_far_branch(map, at) {
        tally.count_occasion(Occasion::FarBranchTaken);
    }
    if map.part_at(at) == Part::Empty && !scene.is_past(at) {
        tally.count_occasion(Occasion::EmptyExecuted);
    }
    if let Some(to) = store_target(scene, map) {
        let occasion = match map.part_at(to) {
            Part::Empty => Occasion::EmptyStore,
            _ if scene.is_past(to) => Occasion::PastStore,
            Part::Rom => Occasion::RomStore,
            Part::Ram8 => Occasion::Ram8Store,
            Part::Ram16 => Occasion::Ram16Store,
        };
        tally.count_occasion(occasion);
    }
}

/// Where MVO stores, if R7 is on one.
fn store_target(scene: &Scene, map: &Map) -> Option<u16> {
    let at = scene.state[R7];
    let second = at.wrapping_add(1);
    match scene.word_at(map, at) & 0x3FF {
        0x240..=0x247 => Some(scene.word_at(map, second)),
        w @ 0x248..=0x277 => Some(scene.state[usize::from(w >> 3 & 7)]),
        0x278..=0x27F => Some(second),
        _ => None,
    }
}

/// Where an interrupt's push was not made in full.
fn count_push(scene: &Scene, map: &Map, tally: &mut Tally) {
    if map.part_at(scene.state[R6]) != Part::Ram16 {
        tally.count_occasion(Occasion::OtherPush);
    }
}

pub(crate) fn run(random: &mut Random, scene: &mut Scene, tally: &mut Tally) {
    let mut state = lent_state(random, scene);
    let mut out = Twin::room(random, RUN_WORDS);
    let (lines, budget, map) = (any_lines(random), any_budget(random), scene.lent_map(random, tally));
    let ours = calls::run(state.ours(), scene.memory.ours(), map.words(), lines, budget, out.ours());
    let theirs = reference::run(state.theirs(), scene.memory.theirs(), map.board(), lines, budget, out.theirs());
    let call = format!("run of {budget} cycles from {:04X?} with lines {lines:08X} {map}", scene.state);
    assert_eq!(ours, theirs, "{call}");
    out.assert_equal(&call, "out");
    state.assert_equal(&call, "state");
    scene.memory.assert_equal(&call, "memory");
    map.assert_equal(&call);
    tally.count("run", ours, || ["halted", "unspecified", "budget"][out.items()[2] as usize]);
    if ours >> 32 != 0 && LONG_RUNS.contains(&budget) && out.items()[1] >= budget {
        tally.count_occasion(Occasion::LongRun);
    }
    if state.len() >= STATE_WORDS {
        scene.continue_from(random, state.items());
    }
}
