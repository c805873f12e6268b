//! Cases of the lister and of the assembler.

use super::{Room, board, memory, same, wanted};
use crate::kit::Kit;
use crate::rows::{self, Fields};
use cp1610::{Listed, TEXT_ROOM};

/// What the text room holds before the call.
const BLANK: u8 = b'#';

pub(super) fn list<K: Kit>(before: &mut Fields, after: &mut Fields) -> Result<(), String> {
    let (address, d) = (before.word("address", 0)?, before.bit("d", false)?);
    let board = board::<K>(before)?;
    let (memory, mut room) = (memory(before)?, Room::new(BLANK, before.number("room", TEXT_ROOM)?));
    let wanted = wanted(after, |answer, after| {
        if answer != "listed" {
            return Ok(None);
        }
        let text = after.take("text").unwrap_or_default().as_bytes();
        room.want(text)?;
        Ok(Some(Listed { length: text.len(), words: after.number("words", 0)?, next_d: after.bit("d", false)? }))
    })?;
    same("answer", K::list(&memory, &board, address, d, &mut room.lent), wanted)?;
    room.compare("room")
}

pub(super) fn assemble<K: Kit>(before: &mut Fields, after: &mut Fields) -> Result<(), String> {
    let (line, d) = (line(before)?, before.bit("d", false)?);
    let wanted = wanted(after, |answer, after| {
        let words = after.read_as("words", rows::list)?;
        Ok(words.filter(|_| answer == "assembled"))
    })?;
    same("answer", K::assemble(&line, d).map(|assembled| assembled.words().to_vec()), wanted)
}

/// The line as text, or as bytes where a row can't show it.
fn line(before: &mut Fields) -> Result<Vec<u8>, String> {
    match (before.take("text"), before.read_as("bytes", rows::bytes)?) {
        (Some(_), Some(_)) => Err("text and bytes are both given".into()),
        (text, bytes) => Ok(bytes.unwrap_or(text.unwrap_or_default().into())),
    }
}
