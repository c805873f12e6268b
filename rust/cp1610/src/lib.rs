//! The proved CP1610 core, for Rust programs: a safe wrapper of `libcp1610.a`.
//!
#![cfg_attr(feature = "library", doc = "```")]
#![cfg_attr(not(feature = "library"), doc = "```ignore")]
//! use cp1610::{Board, Lines, Machine, Range, Register};
//!
//! let mut memory = vec![0; 65_536];
//! memory[0x1000..0x1002].copy_from_slice(cp1610::assemble(b"MVII #$1234,R0", false)?.words());
//! let board = Board::new(&[Range::ram16(0x0000, 0x0FFF), Range::rom(0x1000, 0x1FFF)]);
//! let mut machine = Machine::reset();
//! let step = machine.step(&mut memory, &board, Lines::QUIET)?;
//! assert_eq!((machine.register(Register::R0), machine.register(Register::R7), step.cycles), (0x1234, 0x1002, 8));
//!
//! let frame = machine.run(&mut memory, &board, Lines::QUIET, 14_934)?;
//! assert_eq!(frame.cause, cp1610::Cause::Halted); // the next word is 0, which is HLT
//! # Ok::<(), cp1610::Refusal>(())
//! ```
//!
//! A memory is a slice of up to 65,536 words; what lies past its end reads as $FFFF. A [`Board`] says which of its words are ROM and which
//! are RAM; [`Board::all_ram`] is memory as it is lent. A refused call alters nothing: not the machine, not memory, not a room. The C
//! interface's page is `docs/C-INTERFACE.md`.
//!
//! # Panics
//!
//! Each refusal, kind and cause that the library answers is looked up in the interface's own tables. The core is proved to answer
//! nothing else, so the panic for an unknown one is met only where another library was linked in its place.
//!
//! # Features
//!
//! `library`, on by default, has the calls and links the library. Without it the crate has the types alone, for a program that
//! speaks of a kit's questions and answers and brings its own kit.

#![warn(clippy::missing_errors_doc, clippy::missing_panics_doc)]

mod answers;
mod board;
#[cfg(feature = "library")]
mod library;
mod lines;
mod reached;
mod refusal;
mod state;

pub use answers::{Assembled, Cause, Event, Listed, Longest, PairLengths, Reached, Region, Run, Step, Wait};
pub use board::{Board, Kind, Range};
#[cfg(feature = "library")]
pub use library::{
    Machine, assemble, calls, list, load, load_pair, reach, region, region_reached, wait, write, write_pair,
};
pub use lines::Lines;
pub use reached::ReachedSet;
pub use refusal::Refusal;
pub use state::{Mark, Register, STATE_WORDS, StateWords};

/// The most words that a memory may have.
pub const LONGEST_MEMORY: usize = 65_536;

/// The most ranges that a board may have.
pub const MOST_RANGES: usize = 16;

/// The most addresses that paths may be followed from.
pub const MOST_ENTRIES: usize = 16;

/// How many words a set of reached addresses has for either D, a bit for each address.
pub const SET_WORDS: usize = 1_024;

/// The most cycles that a run may be given.
pub const HIGHEST_BUDGET: u32 = 1_000_000;

/// The most cycles that a wait may be limited to.
pub const HIGHEST_LIMIT: u16 = 4_096;

/// The limit that a limit of 0 stands for.
pub const DEFAULT_LIMIT: u16 = 48;

/// The room that a line's text needs, though no line has more than 14 bytes.
pub const TEXT_ROOM: usize = 16;

/// The most words that a line stands for.
pub const LINE_WORDS: usize = 3;

/// The most words of a record in an image file. The writer makes records of so many, the last perhaps shorter.
pub const RECORD_WORDS: usize = 4_096;

/// The room that takes every image file that is written, up to that of 65,536 words. A file that is loaded may be longer.
pub const IMAGE_ROOM: usize = 131_176;

/// The room that the text of a written pair needs, and its length, whatever the region.
pub const CFG_ROOM: usize = 32;
