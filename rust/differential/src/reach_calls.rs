//! The set of reached addresses, and the meter of a region's members.

use crate::map::{Map, Part};
use crate::meter_calls::{REGION_WORDS, any_region, region_kind, shows_default};
use crate::random::Random;
use crate::reference;
use crate::scene::Scene;
use crate::tally::{Occasion, Tally};
use crate::twin::{Item, Twin};
use cp1610::{MOST_ENTRIES, ReachedSet, Refusal, SET_WORDS, calls};

/// What is reported of a set.
const REACH_WORDS: usize = 4;

/// More than a few addresses.
const MANY_ADDRESSES: u32 = 10_000;

/// Mostly few; now and then none, the most that are taken, one more, or many. Some are given more than once.
fn any_entries(random: &mut Random, scene: &Scene) -> Vec<u16> {
    let count = match random.below(16) {
        0 => 0,
        1 | 2 => MOST_ENTRIES,
        3 => MOST_ENTRIES + 1,
        4 => random.size_below(3 * MOST_ENTRIES),
        _ => 1 + random.size_below(3),
    };
    let mut entries: Vec<u16> = (0..count).map(|_| scene.address(random)).collect();
    if count > 1 && random.one_in(4) {
        let again = random.pick(&entries);
        for _ in 0..random.below(2 * count as u64) {
            let place = random.size_below(count);
            entries[place] = again;
        }
    }
    entries
}

/// How many words a buffer of a set has: just as many as it has to, or, now and then, one less or more, none or any number.
fn any_set_length(random: &mut Random) -> usize {
    match random.below(64) {
        0 => SET_WORDS - 1,
        1 => SET_WORDS + 1,
        2 => random.size_below(2 * SET_WORDS + 1),
        _ => SET_WORDS,
    }
}

/// The buffers of a set, with old contents.
fn any_buffers(random: &mut Random) -> [Twin<u64>; 2] {
    [(); 2].map(|()| {
        let length = any_set_length(random);
        Twin::any(random, length)
    })
}

pub(crate) fn reach(random: &mut Random, scene: &mut Scene, tally: &mut Tally) {
    let (map, entries) = (scene.lent_map(random, tally), any_entries(random, scene));
    let mut entries = Twin::of(random, &entries);
    let mut buffers = any_buffers(random);
    let mut out = Twin::room(random, REACH_WORDS);
    let ([clear, set], memory) = (&mut buffers, &mut scene.memory);
    let ours = calls::reach(memory.ours(), map.words(), entries.ours(), clear.ours(), set.ours(), out.ours());
    let theirs =
        reference::reach(memory.theirs(), map.board(), entries.theirs(), clear.theirs(), set.theirs(), out.theirs());
    let call = format!("reach from {:04X?} into {} and {} words {map}", entries.items(), clear.len(), set.len());
    assert_eq!(ours, theirs, "{call}");
    clear.assert_equal(&call, "words of D clear");
    set.assert_equal(&call, "words of D set");
    out.assert_equal(&call, "out");
    entries.assert_equal(&call, "entries");
    memory.assert_equal(&call, "memory");
    map.assert_equal(&call);
    tally.count("reach", ours, || match out.items()[..] {
        [0, ..] => "nothing",
        [_, 0, ..] => "no R7 writer",
        _ => "R7 writers",
    });
    if ours >> 32 != 0 {
        count_reached(scene, &map, &buffers, out.items(), tally);
        let entries = entries.items();
        let is_again = |n: usize| entries[..n].contains(&entries[n]);
        tally.count_met([
            (Occasion::MostEntries, entries.len() == MOST_ENTRIES),
            (Occasion::EntryAgain, (0..entries.len()).any(is_again)),
        ]);
    }
    count_refused(ours, buffers.each_ref().map(Twin::len), tally);
}

/// The opcodes that were reached, and what is rare of a set.
fn count_reached(scene: &Scene, map: &Map, buffers: &[Twin<u64>; 2], out: &[u32], tally: &mut Tally) {
    let set = ReachedSet::from_words(buffers[0].items(), buffers[1].items());
    for d in [false, true] {
        for address in set.addresses(d) {
            tally.count_reached(scene.word_at(map, address), d);
        }
    }
    let lowest = out[3] as u16;
    let is_empty = map.part_at(lowest) == Part::Empty && !scene.is_past(lowest);
    tally.count_met([
        (Occasion::EitherD, set.addresses(true).any(|address| set.contains(address, false))),
        (Occasion::ManyReached, out[0] > MANY_ADDRESSES),
        (Occasion::EmptyR7Writer, out[2] != 0 && is_empty),
        (Occasion::WrapReached, set.contains(u16::MAX, false) && set.contains(0, false)),
    ]);
}

/// What is rare of a call that was refused, or would have been for its buffers.
fn count_refused(answer: u64, lengths: [usize; 2], tally: &mut Tally) {
    let is_refused_by = |refusal: Refusal| answer == refusal.number().into();
    let is_by_length = is_refused_by(Refusal::WrongSetLength);
    let is_wrong = lengths != [SET_WORDS; 2];
    tally.count_met([
        (Occasion::ShortSet, is_by_length && lengths.contains(&(SET_WORDS - 1))),
        (Occasion::LongSet, is_by_length && lengths.contains(&(SET_WORDS + 1))),
        (Occasion::EntriesFirst, is_wrong && is_refused_by(Refusal::TooManyEntries)),
        (Occasion::LimitFirst, is_wrong && is_refused_by(Refusal::LimitTooHigh)),
    ]);
}

/// A set for a region: mostly one that was built from entries; else dense, sparse, all or none.
fn any_set(random: &mut Random, scene: &Scene, map: &Map) -> ReachedSet {
    let kind = random.below(8);
    let mut set = ReachedSet::new();
    if kind > 3 {
        let entries = any_entries(random, scene);
        // Where this is refused the set stays without an address.
        _ = map.board().map(|board| handwritten::reach(scene.memory.items(), board, &entries, &mut set));
    }
    for word in set.words_mut().into_iter().flatten() {
        let mut any = || u64::of(random.any());
        match kind {
            0 => *word = any(),
            1 => *word = any() & any() & any() & any(),
            2 => *word = u64::MAX,
            _ => {}
        }
    }
    set
}

/// The buffers of a set, now and then of another length than they have to be.
fn lent_buffers(random: &mut Random, set: &ReachedSet) -> [Twin<u64>; 2] {
    [false, true].map(|d| {
        let mut words = set.words(d).to_vec();
        words.resize(any_set_length(random), random.any());
        Twin::of(random, &words)
    })
}

pub(crate) fn region(random: &mut Random, scene: &mut Scene, tally: &mut Tally) {
    let map = scene.lent_map(random, tally);
    let (first, last, limit) = any_region(random, scene, &map);
    let set = any_set(random, scene, &map);
    let buffers = lent_buffers(random, &set);
    let is_one = random.one_in(8);
    let lent = [0, usize::from(!is_one)].map(|n| buffers[n].items());
    let mut out = Twin::room(random, REGION_WORDS);
    let memory = &mut scene.memory;
    let ours = calls::region_reached(memory.ours(), map.words(), first, last, limit, lent[0], lent[1], out.ours());
    let set = ReachedSet::from_words(lent[0], lent[1]);
    let theirs = reference::region_reached(memory.theirs(), map.board(), first, last, limit, &set, out.theirs());
    let lengths = lent.map(<[u64]>::len);
    let call = format!("region {first:04X}..{last:04X} of sets of {lengths:?} words with limit {limit} {map}");
    assert_eq!(ours, theirs, "{call}");
    out.assert_equal(&call, "out");
    buffers.iter().for_each(|buffer| buffer.assert_equal(&call, "set"));
    memory.assert_equal(&call, "memory");
    map.assert_equal(&call);
    tally.count("region_reached", ours, || region_kind(out.items()));
    count_refused(ours, lengths, tally);
    if ours >> 32 != 0 {
        let mut of_all = [0; REGION_WORDS];
        calls::region(memory.ours(), map.words(), first, last, limit, &mut of_all);
        let is_other = of_all != out.items()[..REGION_WORDS];
        tally.count_met([(Occasion::OneBuffer, is_one), (Occasion::StartLeftOut, is_other)]);
    }
    let answer_at =
        |limit| map.board().map(|board| handwritten::region_reached(memory.items(), board, first, last, limit, &set));
    tally.count_met([(Occasion::DefaultMembers, shows_default(limit, answer_at))]);
}
