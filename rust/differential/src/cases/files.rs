//! What the cases of images and of pairs share.

use super::{FILL, ends, memory, put_words, same, same_items, wanted};
use crate::rows::{Fields, pattern};
use cp1610::{LONGEST_MEMORY, Refusal};

/// What a room for a file holds before the call.
pub(super) const BLANK: u8 = 0xA5;

/// What a loader answers: how much it loaded.
type Loaded = Result<usize, Refusal>;

/// Loads into the memory of a case. `counted` is the key of what the loader counts.
pub(super) fn load(
    before: &mut Fields,
    after: &mut Fields,
    counted: &str,
    load: impl FnOnce(&mut [u16]) -> Loaded,
) -> Result<(), String> {
    let mut memory = memory(before)?;
    let mut last_memory = memory.clone();
    put_words(&mut last_memory, after)?;
    same_load(&mut memory, after, counted, load)?;
    same_items("memory", &memory, &last_memory)
}

fn same_load(
    memory: &mut [u16],
    after: &mut Fields,
    counted: &str,
    load: impl FnOnce(&mut [u16]) -> Loaded,
) -> Result<(), String> {
    let wanted =
        wanted(after, |answer, after| if answer == "loaded" { after.number(counted, 0).map(Some) } else { Ok(None) })?;
    same("answer", load(memory), wanted)
}

/// A region that is written and loaded: from a memory with another word at each address into other memory, which then has the region's
/// words and stays as it was elsewhere.
pub(super) struct Trip {
    pub first: u16,
    pub last: u16,
    pub from: Vec<u16>,
    to: Vec<u16>,
}

impl Trip {
    pub fn read(before: &mut Fields) -> Result<Trip, String> {
        let (first, last) = ends(before)?;
        let size = before.number("size", LONGEST_MEMORY)?;
        let from = (0..size).map(|at| pattern(at as u16)).collect();
        Ok(Trip { first, last, from, to: vec![before.word("fill", FILL)?; size] })
    }

    /// Loads what was written.
    pub fn load(
        mut self,
        after: &mut Fields,
        counted: &str,
        load: impl FnOnce(&mut [u16]) -> Loaded,
    ) -> Result<(), String> {
        let region = usize::from(self.first)..=usize::from(self.last);
        let mut last_memory = self.to.clone();
        last_memory[region.clone()].copy_from_slice(&self.from[region]);
        same_load(&mut self.to, after, counted, load)?;
        same_items("memory", &self.to, &last_memory)
    }
}
