//! What was met how often, so that a comparison can't pass by being empty.

use crate::map::Map;
use cp1610::{MOST_RANGES, Range};
use std::collections::BTreeMap;
use std::fmt;

const OPCODES: usize = 1_024;

/// What a call can answer: the refusals in their order, and the kinds of a success.
struct Answers {
    call: &'static str,
    refusals: &'static [u64],
    kinds: &'static [&'static str],
}

/// All that each call can answer. 255 is the C interface's own refusal, of a short buffer or of a map that is none.
const ANSWERS: [Answers; 13] = [
    Answers { call: "reset", refusals: &[255], kinds: &["done"] },
    Answers { call: "step", refusals: &[255, 1, 14, 2, 3], kinds: &["grant", "interrupt", "instruction"] },
    Answers { call: "run", refusals: &[255, 1, 14, 4, 2], kinds: &["halted", "unspecified", "budget"] },
    Answers { call: "wait", refusals: &[255, 1, 14, 8], kinds: &["wait", "over", "halts", "unspecified"] },
    Answers { call: "region", refusals: &[255, 1, 14, 7, 8], kinds: &["wait", "over", "wait and over", "neither"] },
    Answers { call: "list", refusals: &[255, 1, 14, 5], kinds: &["1 word", "2 words", "3 words"] },
    Answers { call: "assemble", refusals: &[255, 6], kinds: &["1 word", "2 words", "3 words"] },
    Answers { call: "load", refusals: &[1, 9, 10, 11, 12], kinds: &["no records", "1 record", "records"] },
    Answers { call: "write", refusals: &[1, 7, 11, 13], kinds: &["1 record", "records"] },
    Answers { call: "load_pair", refusals: &[1, 15, 16, 11], kinds: &["no lines", "1 line", "lines"] },
    Answers { call: "write_pair", refusals: &[255, 1, 7, 11, 13], kinds: &["written"] },
    Answers { call: "reach", refusals: &[255, 1, 14, 17, 18], kinds: &["nothing", "no R7 writer", "R7 writers"] },
    Answers {
        call: "region_reached",
        refusals: &[255, 1, 14, 7, 8, 18],
        kinds: &["wait", "over", "wait and over", "neither"],
    },
];

/// What chance alone makes too seldom, and the draws are made to meet.
#[derive(Clone, Copy, Debug, PartialEq, Eq, PartialOrd, Ord)]
pub(crate) enum Occasion {
    /// A run that spent its budget of 5,000 to 999,997 cycles.
    LongRun,
    /// A wait and a limit of 64 to 4,095 cycles.
    LongWait,
    /// A walk over a limit of 64 to 4,095.
    LongOver,
    /// A limit of 0 and a wait of 48 cycles, the longest that it takes.
    DefaultWait,
    /// One and a walk of 49 to 57 cycles, which were within the limit that 0 stood for up to interface 4.
    DefaultOver,
    /// One and a region whose answer has changed with such a walk.
    DefaultRegion,
    /// One and such a region of a set's members.
    DefaultMembers,
    /// A file of more than three records, loaded.
    ManyRecordsLoaded,
    /// A file of more than three records, written.
    ManyRecordsWritten,
    /// A record of 1,025 to 4,096 words, loaded, which was refused up to interface 5.
    LongRecordLoaded,
    /// A record of 4,096 words, loaded.
    LongestRecordLoaded,
    /// One of 4,097, for which alone a file was refused.
    LongerRecordRefused,
    /// A region of 1,025 to 4,096 words, written, which was more than one record up to interface 5.
    LongRecordWritten,
    /// A region of 4,096 words, written.
    LongestRecordWritten,
    /// One of several records that are all full.
    FullRecordsWritten,
    /// One of several records, of which the last has one word.
    WordLeftWritten,
    /// A text of more than three mapping lines, loaded.
    ManyLinesLoaded,
    /// One with an empty line.
    EmptyLineLoaded,
    /// One with two lines for one address.
    TargetsOverlap,
    /// One with a line that ends with the memory's last word.
    LastWordLoaded,
    /// One with a line of 65,536 words.
    LongestLineLoaded,
    /// A flat file with words that no line can name, loaded.
    LongFileLoaded,
    /// A malformed text, one line of which names words that are missing.
    MalformedFirst,
    /// Missing words, and a line past the memory.
    MissingFirst,
    /// A pair of 65,536 words, written.
    WholeMemoryWritten,
    /// A set of more than 10,000 addresses.
    ManyReached,
    /// One with an address that is reached with either D.
    EitherD,
    /// One with $FFFF and $0000.
    WrapReached,
    /// One whose lowest row that writes R7 is an empty word of memory.
    EmptyR7Writer,
    /// One from 16 entries.
    MostEntries,
    /// One from an entry that was given twice.
    EntryAgain,
    /// A buffer of a set that is a word short.
    ShortSet,
    /// One that is a word long.
    LongSet,
    /// Too many entries, and such a buffer.
    EntriesFirst,
    /// A limit too high, and such a buffer.
    LimitFirst,
    /// A region whose set was lent as one buffer for either D.
    OneBuffer,
    /// One of whose addresses another start is named, which is no member.
    StartLeftOut,
    /// A branch by $8000, taken.
    FarBranchTaken,
    /// A branch by $8000, listed.
    FarBranchListed,
    /// A branch by $8000, assembled.
    FarBranchAssembled,
    /// A map without ranges.
    NoRange,
    /// A map of 16 ranges.
    MostRanges,
    /// A map of 17.
    MoreRanges,
    /// A map with a range whose first address is above its last.
    Reversed,
    /// A map with two ranges of one address.
    Overlap,
    /// A map with a range of one word at $0000.
    LowestWord,
    /// A map with a range of one word at $FFFF.
    HighestWord,
    /// An instruction at an address that memory has and the map has not.
    EmptyExecuted,
    /// MVO to a word of 16-bit RAM.
    Ram16Store,
    /// MVO to a word of 8-bit RAM.
    Ram8Store,
    /// MVO to a word of ROM.
    RomStore,
    /// MVO to an empty word.
    EmptyStore,
    /// MVO to an address that the map has and memory has not.
    PastStore,
    /// An interrupt's push to anything but 16-bit RAM.
    OtherPush,
}

/// All of them, as they are printed.
const OCCASIONS: [(Occasion, &str); 54] = [
    (Occasion::LongRun, "budgets of 5,000 to 999,997 spent"),
    (Occasion::LongWait, "limits of 64 to 4,095 with such a wait"),
    (Occasion::LongOver, "passed"),
    (Occasion::DefaultWait, "limits of 0 with a wait of 48"),
    (Occasion::DefaultOver, "with a walk of 49 to 57"),
    (Occasion::DefaultRegion, "in a region"),
    (Occasion::DefaultMembers, "in one of members"),
    (Occasion::ManyRecordsLoaded, "files of more than three records loaded"),
    (Occasion::ManyRecordsWritten, "and written"),
    (Occasion::LongRecordLoaded, "records of 1,025 to 4,096 words loaded"),
    (Occasion::LongestRecordLoaded, "of 4,096"),
    (Occasion::LongerRecordRefused, "of 4,097 refused"),
    (Occasion::LongRecordWritten, "regions of 1,025 to 4,096 words written"),
    (Occasion::LongestRecordWritten, "of 4,096"),
    (Occasion::FullRecordsWritten, "of several full records"),
    (Occasion::WordLeftWritten, "and one word"),
    (Occasion::ManyLinesLoaded, "texts of more than three mapping lines loaded"),
    (Occasion::EmptyLineLoaded, "with an empty line"),
    (Occasion::TargetsOverlap, "with two lines for one address"),
    (Occasion::LastWordLoaded, "up to the memory's last word"),
    (Occasion::LongestLineLoaded, "with a line of 65,536 words"),
    (Occasion::LongFileLoaded, "with words that no line can name"),
    (Occasion::MalformedFirst, "refused by 15 where 16 holds too"),
    (Occasion::MissingFirst, "by 16 where 11 does"),
    (Occasion::WholeMemoryWritten, "pairs of 65,536 words written"),
    (Occasion::ManyReached, "sets of more than 10,000 addresses"),
    (Occasion::EitherD, "with an address of either D"),
    (Occasion::WrapReached, "with $FFFF and $0000"),
    (Occasion::EmptyR7Writer, "with an empty word as the lowest R7 writer"),
    (Occasion::MostEntries, "from 16 entries"),
    (Occasion::EntryAgain, "from one given twice"),
    (Occasion::ShortSet, "sets a word short"),
    (Occasion::LongSet, "a word long"),
    (Occasion::EntriesFirst, "refused by 17 where 18 holds too"),
    (Occasion::LimitFirst, "by 8 where 18 does"),
    (Occasion::OneBuffer, "regions with one buffer for either D"),
    (Occasion::StartLeftOut, "that leave out a start"),
    (Occasion::FarBranchTaken, "branches by $8000 taken"),
    (Occasion::FarBranchListed, "listed"),
    (Occasion::FarBranchAssembled, "assembled"),
    (Occasion::NoRange, "maps without ranges"),
    (Occasion::MostRanges, "of 16"),
    (Occasion::MoreRanges, "of 17"),
    (Occasion::Reversed, "with a first above its last"),
    (Occasion::Overlap, "with ranges that overlap"),
    (Occasion::LowestWord, "with a range of $0000 alone"),
    (Occasion::HighestWord, "of $FFFF alone"),
    (Occasion::EmptyExecuted, "empty words executed"),
    (Occasion::Ram16Store, "stores to 16-bit RAM"),
    (Occasion::Ram8Store, "to 8-bit RAM"),
    (Occasion::RomStore, "to ROM"),
    (Occasion::EmptyStore, "to empty words"),
    (Occasion::PastStore, "past the memory"),
    (Occasion::OtherPush, "pushes to other than 16-bit RAM"),
];

/// Lengths of memory that have to be met.
const MEMORY_LENGTHS: [usize; 6] = [0, 1, 2, 65_535, 65_536, 65_537];

#[derive(Clone, Copy, Debug, PartialEq, Eq, PartialOrd, Ord)]
pub enum Answer {
    Refused(u64),
    Kind(&'static str),
}

/// How often each answer, opcode, length of memory and rare occasion was met.
pub struct Tally {
    answers: BTreeMap<(&'static str, Answer), u64>,
    memories: BTreeMap<usize, u64>,
    occasions: BTreeMap<Occasion, u64>,
    executed: [u64; OPCODES],
    listed: [[u64; OPCODES]; 2],
    assembled: [u64; OPCODES],
    reached: [[u64; OPCODES]; 2],
}

impl Default for Tally {
    fn default() -> Tally {
        Tally {
            answers: BTreeMap::new(),
            memories: BTreeMap::new(),
            occasions: BTreeMap::new(),
            executed: [0; OPCODES],
            listed: [[0; OPCODES]; 2],
            assembled: [0; OPCODES],
            reached: [[0; OPCODES]; 2],
        }
    }
}

impl Tally {
    /// Counts an answer as the C interface gives it, a success under the name of its kind.
    pub(crate) fn count(&mut self, call: &'static str, answer: u64, kind: impl FnOnce() -> &'static str) {
        let met = if answer >> 32 == 0 { Answer::Refused(answer) } else { Answer::Kind(kind()) };
        *self.answers.entry((call, met)).or_default() += 1;
    }

    pub(crate) fn count_memory(&mut self, length: usize) {
        *self.memories.entry(length).or_default() += 1;
    }

    /// Counts what is rare of a map that is one.
    pub(crate) fn count_map(&mut self, map: &Map) {
        let ranges = map.ranges();
        let overlaps = |n: usize| ranges[..n].iter().any(|range| do_overlap(range, &ranges[n]));
        let has_word = |at: u16| ranges.iter().any(|range| (range.first, range.last) == (at, at));
        self.count_met([
            (Occasion::NoRange, map.words().is_empty()),
            (Occasion::MostRanges, ranges.len() == MOST_RANGES),
            (Occasion::MoreRanges, ranges.len() == MOST_RANGES + 1),
            (Occasion::Reversed, ranges.iter().any(|range| range.first > range.last)),
            (Occasion::Overlap, (0..ranges.len()).any(overlaps)),
            (Occasion::LowestWord, has_word(0)),
            (Occasion::HighestWord, has_word(u16::MAX)),
        ]);
    }

    /// Counts those occasions that are met.
    pub(crate) fn count_met<const N: usize>(&mut self, occasions: [(Occasion, bool); N]) {
        for (occasion, is_met) in occasions {
            if is_met {
                self.count_occasion(occasion);
            }
        }
    }

    pub(crate) fn count_occasion(&mut self, occasion: Occasion) {
        *self.occasions.entry(occasion).or_default() += 1;
    }

    pub(crate) fn count_executed(&mut self, word: u16) {
        self.executed[usize::from(word) % OPCODES] += 1;
    }

    pub(crate) fn count_listed(&mut self, word: u16, d: bool) {
        self.listed[usize::from(d)][usize::from(word) % OPCODES] += 1;
    }

    pub(crate) fn count_assembled(&mut self, word: u16) {
        self.assembled[usize::from(word) % OPCODES] += 1;
    }

    pub(crate) fn count_reached(&mut self, word: u16, d: bool) {
        self.reached[usize::from(d)][usize::from(word) % OPCODES] += 1;
    }

    fn met(&self, call: &'static str, answer: Answer) -> u64 {
        self.answers.get(&(call, answer)).copied().unwrap_or(0)
    }

    /// Looks whether every answer of every call, every opcode, length of memory and rare occasion was met.
    ///
    /// # Panics
    ///
    /// Where one was not.
    pub fn assert_complete(&self) {
        for Answers { call, refusals, kinds } in ANSWERS {
            for &number in refusals {
                assert_ne!(self.met(call, Answer::Refused(number)), 0, "{call} was never refused by {number}");
            }
            for &kind in kinds {
                assert_ne!(self.met(call, Answer::Kind(kind)), 0, "{call} never answered {kind}");
            }
        }
        for length in MEMORY_LENGTHS {
            assert!(self.memories.contains_key(&length), "there was no memory of {length} words");
        }
        for (occasion, _) in OCCASIONS {
            assert!(self.occasions.contains_key(&occasion), "{occasion:?} was never met");
        }
        for opcode in 0..OPCODES {
            assert_ne!(self.executed[opcode], 0, "opcode {opcode:03X} was never executed");
            assert_ne!(self.listed[0][opcode], 0, "opcode {opcode:03X} was never listed with D clear");
            assert_ne!(self.listed[1][opcode], 0, "opcode {opcode:03X} was never listed with D set");
            assert_ne!(self.assembled[opcode], 0, "opcode {opcode:03X} was never assembled");
            assert_ne!(self.reached[0][opcode], 0, "opcode {opcode:03X} was never reached with D clear");
            assert_ne!(self.reached[1][opcode], 0, "opcode {opcode:03X} was never reached with D set");
        }
    }
}

fn do_overlap(a: &Range, b: &Range) -> bool {
    a.first <= b.last && b.first <= a.last
}

fn least(counts: &[u64; OPCODES]) -> u64 {
    counts.iter().copied().min().unwrap_or(0)
}

impl fmt::Display for Tally {
    fn fmt(&self, f: &mut fmt::Formatter<'_>) -> fmt::Result {
        for Answers { call, refusals, kinds } in ANSWERS {
            write!(f, "{call:10}")?;
            for &kind in kinds {
                write!(f, " {kind} {},", self.met(call, Answer::Kind(kind)))?;
            }
            write!(f, " refused")?;
            for &number in refusals {
                write!(f, " by {number} {}", self.met(call, Answer::Refused(number)))?;
            }
            writeln!(f)?;
        }
        write!(f, "memories ")?;
        for length in MEMORY_LENGTHS {
            write!(f, " of {length} words {},", self.memories.get(&length).copied().unwrap_or(0))?;
        }
        writeln!(f, " all {}", self.memories.values().sum::<u64>())?;
        for (occasion, name) in OCCASIONS {
            write!(f, "{name} {}, ", self.occasions.get(&occasion).copied().unwrap_or(0))?;
        }
        writeln!(f)?;
        write!(f, "each opcode executed at least {} times, ", least(&self.executed))?;
        write!(f, "listed {} and under D {}, ", least(&self.listed[0]), least(&self.listed[1]))?;
        write!(f, "assembled {}, ", least(&self.assembled))?;
        write!(f, "reached {} and under D {}", least(&self.reached[0]), least(&self.reached[1]))
    }
}
