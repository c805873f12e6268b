//! The board: "up to 16 ranges, each ROM, 16-bit RAM or 8-bit RAM, first match deciding, unmatched words empty."

use cp1610::{Kind, MOST_RANGES, Range};

/// How many words can be addressed.
const ADDRESSES: usize = 65_536;

/// A board, made once for many calls: what its map says of each address stands in a table, so that no access has to search the ranges.
#[derive(Clone, Debug, PartialEq, Eq)]
pub struct Board {
    /// Whether it has more ranges than it may, or a range whose first address is above its last.
    pub(crate) is_bad: bool,
    pub(crate) tables: Box<Tables>,
}

/// For each address, what makes a read and a store of it one operation.
#[derive(Clone, Debug, PartialEq, Eq)]
pub(crate) struct Tables {
    /// The bits that read as 1 whatever memory holds: all of an empty word, none of another.
    pub ones: [u16; ADDRESSES],
    /// The bits of a word that a store keeps; where there are none, the store is not made.
    pub kept: [u16; ADDRESSES],
}

impl Board {
    /// The board of these ranges.
    pub fn new(ranges: &[Range]) -> Board {
        let is_bad = ranges.len() > MOST_RANGES || ranges.iter().any(|range| range.first > range.last);
        let mut tables = Box::new(Tables { ones: [u16::MAX; ADDRESSES], kept: [0; ADDRESSES] });
        if !is_bad {
            for range in ranges.iter().rev() {
                tables.put(*range);
            }
        }
        Board { is_bad, tables }
    }

    /// The board of one range, 16-bit RAM at every address.
    pub fn all_ram() -> Board {
        Board::new(&[Range::ALL_RAM])
    }
}

impl Tables {
    /// Puts a range before those that were put.
    fn put(&mut self, range: Range) {
        let places = range.first.into()..=range.last.into();
        self.ones[places.clone()].fill(0);
        self.kept[places].fill(match range.kind {
            Kind::Ram16 => 0xFFFF,
            Kind::Ram8 => 0x00FF,
            _ => 0,
        });
    }
}
