//! Cases of the image loader and of the image writer.

use super::files::{self, BLANK, Trip};
use super::{Room, ends, memory, same, wanted};
use crate::kit::Kit;
use crate::rows::{self, Fields};

/// The board of a case that names none.
const USUAL_BOARD: u16 = 2;

/// What the loader counts.
const COUNTED: &str = "records";

pub(super) fn load<K: Kit>(before: &mut Fields, after: &mut Fields) -> Result<(), String> {
    let board = before.word("board", USUAL_BOARD)?;
    let file = before.read_as("file", rows::file)?.unwrap_or_default();
    files::load(before, after, COUNTED, |memory| K::load(board, memory, &file))
}

pub(super) fn write<K: Kit>(before: &mut Fields, after: &mut Fields) -> Result<(), String> {
    let (board, (first, last)) = (before.word("board", USUAL_BOARD)?, ends(before)?);
    let (memory, mut room) = (memory(before)?, Room::new(BLANK, before.number("room", 0)?));
    let wanted = wanted(after, |answer, after| {
        if answer != "written" {
            return Ok(None);
        }
        room.want(&after.read_as("file", rows::file)?.unwrap_or_default())?;
        after.number("length", 0).map(Some)
    })?;
    same("answer", K::write(board, &memory, first, last, &mut room.lent), wanted)?;
    room.compare("room")
}

/// The room has just the file's length.
pub(super) fn trip<K: Kit>(before: &mut Fields, after: &mut Fields) -> Result<(), String> {
    let (board, trip) = (before.word("board", USUAL_BOARD)?, Trip::read(before)?);
    let length = before.number("room", 0)?;
    let mut room = vec![BLANK; length];
    same("length", K::write(board, &trip.from, trip.first, trip.last, &mut room), Ok(length))?;
    trip.load(after, COUNTED, |memory| K::load(board, memory, &room))
}
