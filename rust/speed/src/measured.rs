//! What is measured of a workload.

use std::hash::{DefaultHasher, Hash, Hasher};
use std::time::{Duration, Instant};

/// One round of a workload with one kit.
pub struct Measured {
    /// How many units were done: steps, lines, words, ..
    pub units: u64,
    pub time: Duration,
    /// A hash of all that came out, which both kits have to agree on.
    pub digest: u64,
}

/// The one function in which callgrind collects; see `instructions`.
#[inline(never)]
pub fn callgrind_collects_here(work: &mut dyn FnMut()) {
    work();
}

/// The name by which callgrind finds it.
pub const COLLECTED: &str = "*callgrind_collects_here*";

/// The time that some work takes.
pub fn time_of(mut work: impl FnMut()) -> Duration {
    let start = Instant::now();
    callgrind_collects_here(&mut work);
    start.elapsed()
}

pub fn digest(of: impl Hash) -> u64 {
    let mut hasher = DefaultHasher::new();
    of.hash(&mut hasher);
    hasher.finish()
}
