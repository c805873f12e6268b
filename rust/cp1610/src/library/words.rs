//! The C interface's answers, taken apart, and its lines, put together. An answer below 2^32 is a refusal; else its high half is
//! the kind and its low half the value.

use crate::{Lines, Refusal};

const FIRST_SUCCESS: u64 = 1 << 32;

/// A success that names a kind and a value.
pub(crate) struct Success {
    pub kind: u32,
    pub value: u32,
}

/// The number that a success of a loader or of the image writer counts up from 2^32.
#[inline]
pub(crate) fn counted(answer: u64) -> Result<usize, Refusal> {
    match answer.checked_sub(FIRST_SUCCESS) {
        Some(count) => Ok(count as usize), // records, lines or bytes of a buffer, so it is no more than a length
        None => Err(refusal(answer)),
    }
}

#[inline]
pub(crate) fn success(answer: u64) -> Result<Success, Refusal> {
    if answer < FIRST_SUCCESS {
        return Err(refusal(answer));
    }
    Ok(Success { kind: (answer >> 32) as u32, value: answer as u32 })
}

/// The wrapper's own buffers are never short and a board is always a map, so the refusal is one of document 01's.
#[cold]
fn refusal(number: u64) -> Refusal {
    let known = u8::try_from(number).ok().and_then(Refusal::from_number);
    known.unwrap_or_else(|| unexpected("refusal", number))
}

/// The core is proved to answer as its page says, so this is met only where another library was linked.
#[cold]
pub(crate) fn unexpected(what: &str, number: u64) -> ! {
    panic!("libcp1610.a answered the {what} {number}, which its interface does not have")
}

/// Bit 0 is INTRM, bit 1 BUSRQ, and external input n is bit 16 + n.
#[inline]
pub(crate) fn line_bits(lines: Lines) -> u32 {
    u32::from(lines.intrm) | u32::from(lines.busrq) << 1 | u32::from(lines.external) << 16
}
