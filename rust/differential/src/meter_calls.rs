//! The wait meter, of an address and of a region.

use crate::map::Map;
use crate::random::Random;
use crate::reference;
use crate::scene::Scene;
use crate::tally::{Occasion, Tally};
use crate::twin::Twin;
use cp1610::{DEFAULT_LIMIT, HIGHEST_LIMIT, Wait, calls};
use std::ops::RangeInclusive;

/// What is reported of a region.
pub(crate) const REGION_WORDS: usize = 5;

/// A region is mostly this long at the most; the whole address range is long to walk.
const SHORT_REGION: u64 = 200;

/// Limits that are neither few cycles nor the highest.
const LONG_WALKS: RangeInclusive<u32> = 64..=HIGHEST_LIMIT as u32 - 1;

/// What a limit of 0 stood for up to interface 4.
const FORMER_DEFAULT: u16 = 57;

/// Mostly short; some of any length, some at what 0 stands for and stood for, and some on either side of the wait from the address. 0 is
/// drawn more often where that wait shows what it stands for.
fn any_limit(random: &mut Random, memory: &[u16], map: &Map, address: u16) -> u16 {
    match random.below(16) {
        0 => HIGHEST_LIMIT,
        1 => HIGHEST_LIMIT + 1 + random.below(3) as u16,
        2 => random.word(),
        3 | 4 => 0,
        5 | 6 => random.within(LONG_WALKS) as u16,
        7 | 8 => (wait_from(memory, map, address) + random.below(3) as u16).saturating_sub(1),
        9 | 10 => random.pick(&[DEFAULT_LIMIT, DEFAULT_LIMIT + 1, FORMER_DEFAULT]),
        _ if (DEFAULT_LIMIT..=FORMER_DEFAULT).contains(&wait_from(memory, map, address)) => 0,
        _ => random.within(0..=LONG_WALKS.start() - 1) as u16,
    }
}

/// Whether a call at limit 0 shows what 0 stands for: with the former default its answer is another.
pub(crate) fn shows_default<T: PartialEq>(limit: u16, answer_at: impl Fn(u16) -> T) -> bool {
    limit == 0 && answer_at(DEFAULT_LIMIT) != answer_at(FORMER_DEFAULT)
}

fn wait_from(memory: &[u16], map: &Map, address: u16) -> u16 {
    match map.board().map(|board| handwritten::wait(memory, board, address, HIGHEST_LIMIT)) {
        Some(Ok(Wait::Wait { cycles })) => cycles,
        _ => 0,
    }
}

pub(crate) fn wait(random: &mut Random, scene: &mut Scene, tally: &mut Tally) {
    let (address, map) = (scene.address(random), scene.lent_map(random, tally));
    let limit = any_limit(random, scene.memory.items(), &map, address);
    let ours = calls::wait(scene.memory.ours(), map.words(), address, limit);
    let theirs = reference::wait(scene.memory.theirs(), map.board(), address, limit);
    let call = format!("wait at {address:04X} with limit {limit} {map}");
    assert_eq!(ours, theirs, "{call}");
    scene.memory.assert_equal(&call, "memory");
    map.assert_equal(&call);
    tally.count("wait", ours, || ["wait", "over", "halts", "unspecified"][(ours >> 32) as usize - 1]);
    if LONG_WALKS.contains(&limit.into()) {
        match ours >> 32 {
            1 if LONG_WALKS.contains(&(ours as u32)) => tally.count_occasion(Occasion::LongWait),
            2 => tally.count_occasion(Occasion::LongOver),
            _ => {}
        }
    }
    let answer_at = |limit| reference::wait(scene.memory.items(), map.board(), address, limit);
    tally.count_met([
        (Occasion::DefaultWait, limit == 0 && (ours >> 32, ours as u32) == (1, DEFAULT_LIMIT.into())),
        (Occasion::DefaultOver, shows_default(limit, answer_at)),
    ]);
}

pub(crate) fn any_region(random: &mut Random, scene: &Scene, map: &Map) -> (u16, u16, u16) {
    let first = scene.address(random);
    let limit = any_limit(random, scene.memory.items(), map, first);
    match random.below(64) {
        0 => (0, u16::MAX, limit),
        1 => (first, first.saturating_sub(1), limit),
        2..16 => (first, first.wrapping_add(random.below(3) as u16), limit),
        _ => (first, first.saturating_add(random.below(SHORT_REGION) as u16), limit),
    }
}

pub(crate) fn region(random: &mut Random, scene: &mut Scene, tally: &mut Tally) {
    let map = scene.lent_map(random, tally);
    let (first, last, limit) = any_region(random, scene, &map);
    let mut out = Twin::room(random, REGION_WORDS);
    let ours = calls::region(scene.memory.ours(), map.words(), first, last, limit, out.ours());
    let theirs = reference::region(scene.memory.theirs(), map.board(), first, last, limit, out.theirs());
    let call = format!("region {first:04X}..{last:04X} with limit {limit} {map}");
    assert_eq!(ours, theirs, "{call}");
    out.assert_equal(&call, "out");
    scene.memory.assert_equal(&call, "memory");
    map.assert_equal(&call);
    tally.count("region", ours, || region_kind(out.items()));
    let memory = scene.memory.items();
    let answer_at = |limit| map.board().map(|board| handwritten::region(memory, board, first, last, limit));
    tally.count_met([(Occasion::DefaultRegion, shows_default(limit, answer_at))]);
}

/// What a region's report names.
pub(crate) fn region_kind(out: &[u32]) -> &'static str {
    match (out[0] != 0, out[3] != 0) {
        (true, false) => "wait",
        (false, true) => "over",
        (true, true) => "wait and over",
        (false, false) => "neither",
    }
}
