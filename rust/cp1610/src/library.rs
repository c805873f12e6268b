//! The calls of the proved core.

pub mod calls;
mod image;
mod listing;
mod machine;
mod meter;
mod pair;
mod reach;
mod words;

pub use image::{load, write};
pub use listing::{assemble, list};
pub use machine::Machine;
pub use meter::{region, region_reached, wait};
pub use pair::{load_pair, write_pair};
pub use reach::reach;
