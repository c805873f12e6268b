//! The board: which words are there, and which of them can be stored to.

/// How many words of the C interface a range has: first, last, kind.
const RANGE_WORDS: usize = 3;

/// What a word of a range is; the numbers are the C interface's. All are read as they stand in memory.
#[derive(Clone, Copy, Debug, PartialEq, Eq, Hash)]
#[non_exhaustive]
pub enum Kind {
    /// A store does nothing.
    Rom = 0,
    /// A store puts the whole word there.
    Ram16 = 1,
    /// A store puts the low byte there, and 0 for the high byte.
    Ram8 = 2,
}

/// Addresses of one kind.
#[derive(Clone, Copy, Debug, PartialEq, Eq, Hash)]
pub struct Range {
    /// The lowest address.
    pub first: u16,
    /// The highest address, which belongs to the range.
    pub last: u16,
    /// What its words are.
    pub kind: Kind,
}

impl Range {
    /// ROM from `first` to `last`.
    pub const fn rom(first: u16, last: u16) -> Range {
        Range { first, last, kind: Kind::Rom }
    }

    /// 16-bit RAM from `first` to `last`.
    pub const fn ram16(first: u16, last: u16) -> Range {
        Range { first, last, kind: Kind::Ram16 }
    }

    /// 8-bit RAM from `first` to `last`.
    pub const fn ram8(first: u16, last: u16) -> Range {
        Range { first, last, kind: Kind::Ram8 }
    }

    /// 16-bit RAM at every address.
    pub const ALL_RAM: Range = Range::ram16(0, u16::MAX);
}

/// A board's map: up to [16](crate::MOST_RANGES) ranges, of which the first that has an address decides. An address that none has is
/// empty: it reads as $FFFF, and a store there does nothing. So does a word past the memory, in any range.
///
/// A board can be made from any ranges. More than 16, or one whose first address is above its last, are refused where the board is lent,
/// by [`Refusal::BadMap`](crate::Refusal::BadMap).
///
/// ```
/// use cp1610::{Board, Kind, Range};
///
/// let board = Board::new(&[Range::ram8(0x0100, 0x01EF), Range::ram16(0x0200, 0x035F), Range::rom(0x5000, 0x6FFF)]);
/// assert_eq!(board.ranges().nth(2), Some(Range { first: 0x5000, last: 0x6FFF, kind: Kind::Rom }));
/// assert_eq!(Board::all_ram().ranges().count(), 1);
/// ```
#[derive(Clone, Debug, PartialEq, Eq, Hash)]
pub struct Board {
    /// As the C interface has them, so that a call makes nothing of them.
    map: Vec<u16>,
}

impl Board {
    /// The board of these ranges; with none, every word is empty.
    pub fn new(ranges: &[Range]) -> Board {
        ranges.iter().copied().collect()
    }

    /// The board of one range, 16-bit RAM at every address: memory just as it is lent.
    pub fn all_ram() -> Board {
        Board::new(&[Range::ALL_RAM])
    }

    /// The ranges, first the one that decides first.
    pub fn ranges(&self) -> impl Iterator<Item = Range> {
        self.map.as_chunks().0.iter().map(|&[first, last, kind]: &[u16; RANGE_WORDS]| Range {
            first,
            last,
            kind: kind_of(kind),
        })
    }

    /// The ranges as the C interface takes them, three words each.
    pub fn map(&self) -> &[u16] {
        &self.map
    }
}

impl FromIterator<Range> for Board {
    fn from_iter<T: IntoIterator<Item = Range>>(ranges: T) -> Board {
        let words = |range: Range| [range.first, range.last, range.kind as u16];
        Board { map: ranges.into_iter().flat_map(words).collect() }
    }
}

/// The kind of a number that was one.
fn kind_of(number: u16) -> Kind {
    match number {
        0 => Kind::Rom,
        1 => Kind::Ram16,
        _ => Kind::Ram8,
    }
}
