//! Cases of the reader and of the writer of pairs.

use super::files::{self, BLANK, Trip};
use super::{Room, ends, memory, same, wanted};
use crate::kit::Kit;
use crate::rows::{self, Fields};
use cp1610::{CFG_ROOM, PairLengths};

/// What the reader counts.
const COUNTED: &str = "lines";

/// The flat file and the mapping text of a row.
fn pair(fields: &mut Fields) -> Result<(Vec<u8>, Vec<u8>), String> {
    let text = fields.take("text").map(rows::lines);
    Ok((fields.read_as("bin", rows::bytes)?.unwrap_or_default(), text.unwrap_or_default()))
}

pub(super) fn load<K: Kit>(before: &mut Fields, after: &mut Fields) -> Result<(), String> {
    let (bin, cfg) = pair(before)?;
    files::load(before, after, COUNTED, |memory| K::load_pair(memory, &bin, &cfg))
}

pub(super) fn write<K: Kit>(before: &mut Fields, after: &mut Fields) -> Result<(), String> {
    let (memory, (first, last)) = (memory(before)?, ends(before)?);
    let mut bin = Room::new(BLANK, before.number("binroom", 0)?);
    let mut cfg = Room::new(BLANK, before.number("cfgroom", 0)?);
    let wanted = wanted(after, |answer, after| {
        if answer != "written" {
            return Ok(None);
        }
        let (file, text) = pair(after)?;
        bin.want(&file)?;
        cfg.want(&text)?;
        Ok(Some(PairLengths { bin: after.number("binlength", 0)?, cfg: after.number("cfglength", 0)? }))
    })?;
    same("answer", K::write_pair(&memory, first, last, &mut bin.lent, &mut cfg.lent), wanted)?;
    bin.compare("bin")?;
    cfg.compare("cfg")
}

/// The rooms have just the lengths of file and text.
pub(super) fn trip<K: Kit>(before: &mut Fields, after: &mut Fields) -> Result<(), String> {
    let trip = Trip::read(before)?;
    let words = usize::from(trip.last.saturating_sub(trip.first)) + 1;
    let lengths = PairLengths { bin: 2 * words, cfg: CFG_ROOM };
    let (mut bin, mut cfg) = (vec![BLANK; lengths.bin], vec![BLANK; lengths.cfg]);
    same("lengths", K::write_pair(&trip.from, trip.first, trip.last, &mut bin, &mut cfg), Ok(lengths))?;
    trip.load(after, COUNTED, |memory| K::load_pair(memory, &bin, &cfg))
}
