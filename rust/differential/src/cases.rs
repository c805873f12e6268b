//! The cases of the test programs, run with a kit: the call of a case is made, and its answer and all that was lent are compared with
//! what the case says. The first lines of each file explain its kinds and keys.

mod files;
mod image;
mod listing;
mod meter;
mod pair;
mod processor;
mod reach;
#[cfg(test)]
mod tests;

use crate::kit::Kit;
use crate::rows::{self, Case, Fields};
use cp1610::{LONGEST_MEMORY, Range, Refusal};
use std::collections::BTreeMap;
use std::fmt::Debug;

/// The word at every address that a case does not name.
const FILL: u16 = 0x5A5A;

/// The test programs whose files have such cases. A kind is the program's own: images and pairs both have a `load`.
#[derive(Clone, Copy, Debug, PartialEq, Eq)]
pub enum Program {
    /// Steps and runs.
    Step,
    /// Waits and regions.
    Meter,
    /// Reached sets, and regions of which their members are metered.
    Reach,
    /// Lines, listed and assembled.
    Listing,
    /// Images, loaded and written.
    Image,
    /// Pairs, loaded and written.
    Pair,
}

/// Runs every case of a program's file with a kit, and answers how many cases of each kind there were.
///
/// # Errors
///
/// Where a row is not understood, or where the kit answers or leaves something else: a line for each such case.
pub fn run_all<K: Kit>(program: Program, file: &str) -> Result<BTreeMap<&str, usize>, String> {
    let mut counts = BTreeMap::new();
    let mut failed = Vec::new();
    for case in rows::cases(file)? {
        *counts.entry(case.kind).or_default() += 1;
        if let Err(difference) = run::<K>(program, &case) {
            failed.push(format!("row {}, {} {}: {difference}", case.row, case.kind, case.name));
        }
    }
    if failed.is_empty() { Ok(counts) } else { Err(failed.join("\n")) }
}

/// Runs one case. Each kind takes the fields that it knows from the rows, and none may be left over.
fn run<K: Kit>(program: Program, case: &Case) -> Result<(), String> {
    let (mut before, mut after) = case.fields()?;
    let compared = match (program, case.kind) {
        (Program::Step, "step") => processor::step::<K>(&mut before, &mut after),
        (Program::Step, "run") => processor::run::<K>(&mut before, &mut after),
        (Program::Meter, "wait") => meter::wait::<K>(&mut before, &mut after),
        (Program::Meter, "region") => meter::region::<K>(&mut before, &mut after),
        (Program::Reach, "reach") => reach::reach::<K>(&mut before, &mut after),
        (Program::Reach, "region") => reach::region::<K>(&mut before, &mut after),
        (Program::Reach, "both") => reach::both::<K>(&mut before, &mut after),
        (Program::Listing, "list") => listing::list::<K>(&mut before, &mut after),
        (Program::Listing, "assemble") => listing::assemble::<K>(&mut before, &mut after),
        (Program::Image, "load") => image::load::<K>(&mut before, &mut after),
        (Program::Image, "write") => image::write::<K>(&mut before, &mut after),
        (Program::Image, "trip") => image::trip::<K>(&mut before, &mut after),
        (Program::Pair, "load") => pair::load::<K>(&mut before, &mut after),
        (Program::Pair, "write") => pair::write::<K>(&mut before, &mut after),
        (Program::Pair, "trip") => pair::trip::<K>(&mut before, &mut after),
        _ => return Err(format!("the cases of {program:?} have no such kind")),
    };
    let wrong: Vec<String> = [compared, before.end(), after.end()].into_iter().filter_map(Result::err).collect();
    if wrong.is_empty() { Ok(()) } else { Err(wrong.join("; ")) }
}

fn same<T: PartialEq + Debug>(what: &str, found: T, wanted: T) -> Result<(), String> {
    if found == wanted { Ok(()) } else { Err(format!("{what} {found:X?} in place of {wanted:X?}")) }
}

fn same_items<T: PartialEq + Debug>(what: &str, found: &[T], wanted: &[T]) -> Result<(), String> {
    match found.iter().zip(wanted).position(|(found, wanted)| found != wanted) {
        Some(at) => same(&format!("{what} at {at:04X}:"), &found[at], &wanted[at]),
        None => same(&format!("length of {what}"), found.len(), wanted.len()),
    }
}

/// The memory that is lent.
fn memory(before: &mut Fields) -> Result<Vec<u16>, String> {
    let mut memory = vec![before.word("fill", FILL)?; before.number("size", LONGEST_MEMORY)?];
    put_words(&mut memory, before)?;
    Ok(memory)
}

/// The board that is lent; all-RAM where the row has no map.
fn board<K: Kit>(before: &mut Fields) -> Result<K::Board, String> {
    let ranges = before.read_as("map", rows::map)?;
    Ok(K::board(&ranges.unwrap_or(vec![Range::ALL_RAM])))
}

fn put_words(memory: &mut [u16], fields: &mut Fields) -> Result<(), String> {
    for (at, word) in fields.words()? {
        *memory.get_mut(at).ok_or(format!("{at:04X} is past the memory"))? = word;
    }
    Ok(())
}

/// The ends of a region.
fn ends(before: &mut Fields) -> Result<(u16, u16), String> {
    Ok((before.word("first", 0)?, before.word("last", 0)?))
}

/// A room that is lent, and what it has to hold after the call.
struct Room {
    lent: Vec<u8>,
    wanted: Vec<u8>,
}

impl Room {
    fn new(blank: u8, length: usize) -> Room {
        Room { lent: vec![blank; length], wanted: vec![blank; length] }
    }

    /// From now on the room has to begin with these bytes.
    fn want(&mut self, bytes: &[u8]) -> Result<(), String> {
        let place = self.wanted.get_mut(..bytes.len()).ok_or(format!("there is no room for {} bytes", bytes.len()))?;
        place.copy_from_slice(bytes);
        Ok(())
    }

    fn compare(&self, name: &str) -> Result<(), String> {
        same_items(name, &self.lent, &self.wanted)
    }
}

/// What a call has to answer: a refusal, or what `read` makes of the row's answer, if that is one of the call's.
fn wanted<T>(
    after: &mut Fields,
    read: impl FnOnce(&str, &mut Fields) -> Result<Option<T>, String>,
) -> Result<Result<T, Refusal>, String> {
    let answer = after.expect("answer")?;
    if answer == "refused" {
        let number = after.number("number", 0)?;
        return Ok(Err(Refusal::from_number(number).ok_or(format!("there is no refusal {number}"))?));
    }
    Ok(Ok(read(answer, after)?.ok_or(format!("there is no answer {answer}"))?))
}
