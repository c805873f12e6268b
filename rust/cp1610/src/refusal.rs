//! Document 01's table of refusals, with the numbers that document 02 adds to it.

use std::error::Error;
use std::fmt;

/// Why a call was refused. A refused call alters nothing.
#[derive(Clone, Copy, Debug, PartialEq, Eq, Hash)]
#[non_exhaustive]
#[repr(u8)]
pub enum Refusal {
    /// The memory is above 65,536 words.
    MemoryTooLong = 1,
    /// A step or a run on a halted machine.
    Halted = 2,
    /// A step meets an unspecified form.
    Unspecified = 3,
    /// A budget above 1,000,000 cycles.
    BudgetTooHigh = 4,
    /// A text room under 16 bytes.
    TextRoomTooSmall = 5,
    /// A line that is not one of the lister's.
    NotAListingLine = 6,
    /// A region whose first address is above its last.
    FirstAboveLast = 7,
    /// A limit above 4,096 cycles.
    LimitTooHigh = 8,
    /// An image file with a missing or wrong mark, cut, with a count of 0 or above 4,096, or with bytes after its end.
    MalformedImage = 9,
    /// An image file for another board.
    WrongBoard = 10,
    /// A record, a mapping line's target or a written region past the memory.
    PastMemory = 11,
    /// An image file whose sum differs.
    SumDiffers = 12,
    /// An image room, or either room of a written pair, that is too small.
    RoomTooSmall = 13,
    /// A board of more than 16 ranges, or with a range whose first address is above its last.
    BadMap = 14,
    /// A mapping text without its first line, or with a line that is not of the form or has its first word above its last.
    MalformedMapping = 15,
    /// A mapping line that names words that the flat file lacks, or a flat file of an odd number of bytes.
    MissingFileWords = 16,
    /// More than 16 entries, of which two may be equal.
    TooManyEntries = 17,
    /// A set of reached addresses that has not just 1,024 words for either D.
    WrongSetLength = 18,
}

impl Refusal {
    /// Every refusal, number 1 first.
    const TABLE: [Refusal; 18] = [
        Refusal::MemoryTooLong,
        Refusal::Halted,
        Refusal::Unspecified,
        Refusal::BudgetTooHigh,
        Refusal::TextRoomTooSmall,
        Refusal::NotAListingLine,
        Refusal::FirstAboveLast,
        Refusal::LimitTooHigh,
        Refusal::MalformedImage,
        Refusal::WrongBoard,
        Refusal::PastMemory,
        Refusal::SumDiffers,
        Refusal::RoomTooSmall,
        Refusal::BadMap,
        Refusal::MalformedMapping,
        Refusal::MissingFileWords,
        Refusal::TooManyEntries,
        Refusal::WrongSetLength,
    ];

    /// Its number in document 01's table.
    pub fn number(self) -> u8 {
        self as u8
    }

    /// The refusal that has this number, if one has.
    pub fn from_number(number: u8) -> Option<Refusal> {
        let place = number.checked_sub(1)?;
        Refusal::TABLE.get(usize::from(place)).copied()
    }

    fn reason(self) -> &'static str {
        match self {
            Refusal::MemoryTooLong => "the memory is above 65,536 words",
            Refusal::Halted => "the machine is halted",
            Refusal::Unspecified => "the next instruction is unspecified",
            Refusal::BudgetTooHigh => "the budget is above 1,000,000 cycles",
            Refusal::TextRoomTooSmall => "the text room is under 16 bytes",
            Refusal::NotAListingLine => "the line is not one of the lister's",
            Refusal::FirstAboveLast => "the first address is above the last",
            Refusal::LimitTooHigh => "the limit is above 4,096 cycles",
            Refusal::MalformedImage => "the image file is malformed",
            Refusal::WrongBoard => "the image file is for another board",
            Refusal::PastMemory => "a record, a mapping target or a region is past the memory",
            Refusal::SumDiffers => "the image file's sum differs",
            Refusal::RoomTooSmall => "the room for an image or a pair is too small",
            Refusal::BadMap => "the board has more than 16 ranges, or one with its first address above its last",
            Refusal::MalformedMapping => "the mapping text is malformed",
            Refusal::MissingFileWords => "the flat file lacks a word that a line names, or has an odd number of bytes",
            Refusal::TooManyEntries => "there are more than 16 entries",
            Refusal::WrongSetLength => "the set of reached addresses has not 1,024 words for either D",
        }
    }
}

impl fmt::Display for Refusal {
    fn fmt(&self, f: &mut fmt::Formatter<'_>) -> fmt::Result {
        write!(f, "refused by {}: {}", self.number(), self.reason())
    }
}

impl Error for Refusal {}

#[cfg(test)]
mod tests {
    use super::Refusal;

    #[test]
    fn numbers_are_places_in_the_table() {
        for (place, refusal) in Refusal::TABLE.into_iter().enumerate() {
            assert_eq!(usize::from(refusal.number()), place + 1);
            assert_eq!(Refusal::from_number(refusal.number()), Some(refusal));
        }
        for number in [0, 19, 255] {
            assert_eq!(Refusal::from_number(number), None);
        }
    }
}
