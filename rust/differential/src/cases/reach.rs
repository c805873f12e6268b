//! Cases of reached sets, and of the region meter that takes one.

use super::meter::region_wanted;
use super::{board, ends, memory, same, same_items, wanted};
use crate::kit::Kit;
use crate::rows::{self, Fields};
use cp1610::{Reached, ReachedSet, SET_WORDS};

/// What a buffer holds past the words of a set.
const BLANK: u64 = 0xA5A5_A5A5_A5A5_A5A5;

/// The words of a set whose members a row gives.
fn words(fields: &mut Fields, key: &str) -> Result<Vec<u64>, String> {
    let mut words = vec![0; SET_WORDS];
    for address in fields.read_as(key, rows::spans)?.unwrap_or_default().into_iter().flatten() {
        words[usize::from(address / 64)] |= 1 << (address % 64);
    }
    Ok(words)
}

/// .. in a buffer of the length that the row gives.
fn buffer(before: &mut Fields, members: &str, length: &str) -> Result<Vec<u64>, String> {
    let mut words = words(before, members)?;
    words.resize(before.number(length, SET_WORDS)?, BLANK);
    Ok(words)
}

fn lent(before: &mut Fields) -> Result<ReachedSet, String> {
    Ok(ReachedSet::from_words(&buffer(before, "clear", "clearwords")?, &buffer(before, "set", "setwords")?))
}

fn entries(before: &mut Fields) -> Result<Vec<u16>, String> {
    Ok(before.read_as("entries", rows::list)?.unwrap_or_default())
}

/// A refused call leaves the buffers as they were.
pub(super) fn reach<K: Kit>(before: &mut Fields, after: &mut Fields) -> Result<(), String> {
    let (memory, board, entries) = (memory(before)?, board::<K>(before)?, entries(before)?);
    let mut set = lent(before)?;
    let mut last_set = set.clone();
    let wanted = wanted(after, |answer, after| {
        if answer != "built" {
            return Ok(None);
        }
        last_set = ReachedSet::from_words(&words(after, "clear")?, &words(after, "set")?);
        Ok(Some(Reached {
            addresses: after.number("addresses", 0)?,
            r7_writers: after.number("writers", 0)?,
            lowest_r7_writer: after.read_as("lowest", rows::word)?,
        }))
    })?;
    same("answer", K::reach(&memory, &board, &entries, &mut set), wanted)?;
    same_items("words of clear", set.words(false), last_set.words(false))?;
    same_items("words of set", set.words(true), last_set.words(true))
}

pub(super) fn region<K: Kit>(before: &mut Fields, after: &mut Fields) -> Result<(), String> {
    let set = lent(before)?;
    meter::<K>(before, after, |_, _| set)
}

/// The set is built first.
pub(super) fn both<K: Kit>(before: &mut Fields, after: &mut Fields) -> Result<(), String> {
    let entries = entries(before)?;
    meter::<K>(before, after, |memory, board| {
        let mut set = ReachedSet::new();
        // Where this is refused the set stays without an address.
        _ = K::reach(memory, board, &entries, &mut set);
        set
    })
}

fn meter<K: Kit>(
    before: &mut Fields,
    after: &mut Fields,
    set: impl FnOnce(&[u16], &K::Board) -> ReachedSet,
) -> Result<(), String> {
    let ((first, last), limit) = (ends(before)?, before.number("limit", 0)?);
    let (memory, board) = (memory(before)?, board::<K>(before)?);
    let set = set(&memory, &board);
    same("answer", K::region_reached(&memory, &board, first, last, limit, &set), region_wanted(after)?)
}
