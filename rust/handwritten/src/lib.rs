//! A CP1610 board kit in plain safe Rust, written by hand from documents 01 and 02 and from nothing else: no rule or table of it comes
//! from the proved code, and the proved library is not linked. It speaks in the types of the crate `cp1610`, so that one program can
//! use either kit. The tests in `differential` hold the proved core against it, and `speed` measures both.
//!
//! It is written for speed, as an emulator's author would: a machine is changed in place, each opcode has a function of its own
//! in a table, what an opcode alone decides is decided while compiling, and what a board's map decides is decided when the board is made.

mod alu;
mod assemble;
mod bits;
mod board;
mod bytes;
mod execute;
mod hex;
mod image;
mod list;
mod machine;
mod memory;
mod meter;
mod mnemonic;
mod opcode;
mod pair;
mod reach;
mod shift;
mod step;

pub use assemble::assemble;
pub use board::Board;
pub use image::{load, write};
pub use list::list;
pub use machine::Machine;
pub use meter::{region, region_reached, wait};
pub use pair::{load_pair, write_pair};
pub use reach::reach;
