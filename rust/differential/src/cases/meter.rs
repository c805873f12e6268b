//! Cases of the wait meter.

use super::{board, ends, memory, same, wanted};
use crate::kit::Kit;
use crate::rows::{self, Fields};
use cp1610::{Longest, Refusal, Region, Wait};

pub(super) fn wait<K: Kit>(before: &mut Fields, after: &mut Fields) -> Result<(), String> {
    let (address, limit) = (before.word("address", 0)?, before.number("limit", 0)?);
    let (memory, board) = (memory(before)?, board::<K>(before)?);
    let wanted = wanted(after, |answer, after| {
        Ok(Some(match answer {
            "wait" => Wait::Wait { cycles: after.number("cycles", 0)? },
            "over" => Wait::Over,
            "halts" => Wait::Halts,
            "unspecified" => Wait::Unspecified { address: after.word("address", 0)? },
            _ => return Ok(None),
        }))
    })?;
    same("answer", K::wait(&memory, &board, address, limit), wanted)
}

pub(super) fn region<K: Kit>(before: &mut Fields, after: &mut Fields) -> Result<(), String> {
    let ((first, last), limit) = (ends(before)?, before.number("limit", 0)?);
    let (memory, board) = (memory(before)?, board::<K>(before)?);
    same("answer", K::region(&memory, &board, first, last, limit), region_wanted(after)?)
}

/// What the meter has to answer for a region.
pub(super) fn region_wanted(after: &mut Fields) -> Result<Result<Region, Refusal>, String> {
    wanted(after, |answer, after| {
        if answer != "found" {
            return Ok(None);
        }
        Ok(Some(Region { longest: longest(after)?, over: after.read_as("over", rows::word)? }))
    })
}

fn longest(after: &mut Fields) -> Result<Option<Longest>, String> {
    match (after.read_as("longest", rows::number)?, after.read_as("start", rows::word)?) {
        (Some(cycles), Some(start)) => Ok(Some(Longest { cycles, start })),
        (None, None) => Ok(None),
        _ => Err("longest and start stand together".into()),
    }
}
