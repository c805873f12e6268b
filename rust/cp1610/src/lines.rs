//! The lines of a step or a run.

/// The levels that a step sees. Later boards have more lines: write `Lines { busrq: false, ..Lines::QUIET }`, which names only
/// what differs.
#[derive(Clone, Copy, Debug, PartialEq, Eq, Hash)]
pub struct Lines {
    /// INTRM, true for high: an interrupt is requested by a fall.
    pub intrm: bool,
    /// BUSRQ, true for high: the bus is requested while it is low.
    pub busrq: bool,
    /// The external branch inputs: input n is bit n.
    pub external: u16,
}

impl Lines {
    /// Nothing is requested, and every external input is 0.
    pub const QUIET: Lines = Lines { intrm: true, busrq: true, external: 0 };
}
