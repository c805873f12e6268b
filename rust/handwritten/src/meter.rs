//! The wait meter: how long a request can go unheard from an address, or from any address of a region.

use crate::bits::{bits_of, members};
use crate::board::Board;
use crate::memory::Words;
use crate::opcode::{HLT, SDBD, is_unspecified, opcode_at, row_of};
use cp1610::{DEFAULT_LIMIT, HIGHEST_LIMIT, Longest, ReachedSet, Refusal, Region, Wait};

/// How long a request waits that comes before the instruction at `address`.
///
/// # Errors
///
/// Refused by 1, 14 and 8, in this order.
pub fn wait(memory: &[u16], board: &Board, address: u16, limit: u16) -> Result<Wait, Refusal> {
    let words = Words::new(memory, board)?;
    Ok(walk(words, address, limit_of(limit)?))
}

/// The longest wait from any address of `first..=last`, and the lowest that is over the limit.
///
/// # Errors
///
/// Refused by 1, 14, 7 and 8, in this order.
pub fn region(memory: &[u16], board: &Board, first: u16, last: u16, limit: u16) -> Result<Region, Refusal> {
    let words = Words::new(memory, board)?;
    let limit = region_limit(first, last, limit)?;
    Ok(walk_from(words, first..=last, limit))
}

/// The same from the addresses of `first..=last` alone that the set has with D clear.
///
/// # Errors
///
/// Refused by 1, 14, 7, 8 and 18, in this order; 18 for the words of either D.
pub fn region_reached(
    memory: &[u16],
    board: &Board,
    first: u16,
    last: u16,
    limit: u16,
    set: &ReachedSet,
) -> Result<Region, Refusal> {
    let words = Words::new(memory, board)?;
    let limit = region_limit(first, last, limit)?;
    let (clear, _) = (bits_of(set.words(false))?, bits_of(set.words(true))?);
    Ok(walk_from(words, members(clear, first, last), limit))
}

/// The limit of a region. Refused by 7 and 8, in this order.
fn region_limit(first: u16, last: u16, limit: u16) -> Result<u16, Refusal> {
    if first > last { Err(Refusal::FirstAboveLast) } else { limit_of(limit) }
}

/// What the walks from these starts, the lowest first, come to.
#[inline(always)]
fn walk_from(words: Words, starts: impl Iterator<Item = u16>, limit: u16) -> Region {
    let mut found = Region { longest: None, over: None };
    starts.for_each(|start| {
        let answer = walk(words, start, limit);
        if let Wait::Wait { cycles } = answer {
            if found.longest.is_none_or(|longest| longest.cycles < cycles) {
                found.longest = Some(Longest { cycles, start });
            }
        } else if answer == Wait::Over {
            found.over = found.over.or(Some(start));
        }
    });
    found
}

/// "Limit 1 to 4,096 cycles"; document 02: "A limit of 0 should mean 48."
fn limit_of(limit: u16) -> Result<u16, Refusal> {
    match limit {
        0 => Ok(DEFAULT_LIMIT),
        1..=HIGHEST_LIMIT => Ok(limit),
        _ => Err(Refusal::LimitTooHigh),
    }
}

/// A row that is not heard is never unspecified, so only the last one has to be looked at for that.
#[inline(always)]
fn walk(words: Words, start: u16, limit: u16) -> Wait {
    let (mut at, mut sum, mut d) = (start, 0, false);
    loop {
        let w = opcode_at(words, at);
        let row = row_of(w, d);
        sum += u16::from(row.cycles);
        if row.heard | row.halts {
            return last_row(words, at, w, d, sum, limit);
        }
        if sum > limit {
            return Wait::Over;
        }
        at = at.wrapping_add(row.words.into());
        d = w == SDBD;
    }
}

#[inline(always)]
fn last_row(words: Words, at: u16, w: u16, d: bool, sum: u16, limit: u16) -> Wait {
    if is_unspecified(words, at, w, d) {
        Wait::Unspecified { address: at }
    } else if sum > limit {
        Wait::Over
    } else if w == HLT {
        Wait::Halts
    } else {
        Wait::Wait { cycles: sum }
    }
}
