//! A kit as a type, for tests and measurements that are run with either of the two.

use cp1610::{
    Assembled, Lines, Listed, PairLengths, Range, Reached, ReachedSet, Refusal, Region, Run, StateWords, Step, Wait,
};

/// The calls of a board kit. The refusals are document 01's, as the crate `cp1610` says at each of its functions.
pub trait Kit {
    /// A machine of this kit.
    type Machine;

    /// A board of this kit.
    type Board;

    /// What the kit is called in tables.
    const NAME: &'static str;

    /// A machine after reset.
    fn reset() -> Self::Machine;

    /// The machine that these words stand for.
    fn from_words(words: &StateWords) -> Self::Machine;

    /// The words that stand for this machine.
    fn to_words(machine: &Self::Machine) -> StateWords;

    /// The board of these ranges, good or bad.
    fn board(ranges: &[Range]) -> Self::Board;

    /// One step.
    fn step(
        machine: &mut Self::Machine,
        memory: &mut [u16],
        board: &Self::Board,
        lines: Lines,
    ) -> Result<Step, Refusal>;

    /// Steps while their cycles are below the budget.
    fn run(
        machine: &mut Self::Machine,
        memory: &mut [u16],
        board: &Self::Board,
        lines: Lines,
        budget: u32,
    ) -> Result<Run, Refusal>;

    /// How long a request waits from an address.
    fn wait(memory: &[u16], board: &Self::Board, address: u16, limit: u16) -> Result<Wait, Refusal>;

    /// The longest wait of a region, and its lowest address that is over the limit.
    fn region(memory: &[u16], board: &Self::Board, first: u16, last: u16, limit: u16) -> Result<Region, Refusal>;

    /// Where paths from the entries lead, put into a set.
    fn reach(memory: &[u16], board: &Self::Board, entries: &[u16], set: &mut ReachedSet) -> Result<Reached, Refusal>;

    /// What a region comes to from those of its addresses alone that the set has with D clear.
    fn region_reached(
        memory: &[u16],
        board: &Self::Board,
        first: u16,
        last: u16,
        limit: u16,
        set: &ReachedSet,
    ) -> Result<Region, Refusal>;

    /// The line of an instruction.
    fn list(memory: &[u16], board: &Self::Board, address: u16, d: bool, text: &mut [u8]) -> Result<Listed, Refusal>;

    /// The words of a line.
    fn assemble(line: &[u8], d: bool) -> Result<Assembled, Refusal>;

    /// Loads an image file, and answers the number of its records.
    fn load(board: u16, memory: &mut [u16], file: &[u8]) -> Result<usize, Refusal>;

    /// Writes an image file, and answers its length.
    fn write(board: u16, memory: &[u16], first: u16, last: u16, room: &mut [u8]) -> Result<usize, Refusal>;

    /// Loads a flat file by its mapping text, and answers the number of mapping lines.
    fn load_pair(memory: &mut [u16], bin: &[u8], cfg: &[u8]) -> Result<usize, Refusal>;

    /// Writes a flat file and its mapping text, and answers their lengths.
    fn write_pair(
        memory: &[u16],
        first: u16,
        last: u16,
        bin: &mut [u8],
        cfg: &mut [u8],
    ) -> Result<PairLengths, Refusal>;
}

/// Makes a type that is the kit of a crate, whose functions have the trait's names.
macro_rules! kit_of_crate {
    ($(#[$doc:meta])* $kit:ident, $name:literal, $calls:ident) => {
        $(#[$doc])*
        #[derive(Clone, Copy, Debug)]
        pub struct $kit;

        impl Kit for $kit {
            type Machine = $calls::Machine;
            type Board = $calls::Board;

            const NAME: &'static str = $name;

            fn reset() -> Self::Machine {
                $calls::Machine::reset()
            }

            fn from_words(words: &StateWords) -> Self::Machine {
                $calls::Machine::from_words(words)
            }

            fn to_words(machine: &Self::Machine) -> StateWords {
                machine.to_words()
            }

            fn board(ranges: &[Range]) -> Self::Board {
                $calls::Board::new(ranges)
            }

            #[inline]
            fn step(
                machine: &mut Self::Machine,
                memory: &mut [u16],
                board: &Self::Board,
                lines: Lines,
            ) -> Result<Step, Refusal> {
                machine.step(memory, board, lines)
            }

            #[inline]
            fn run(
                machine: &mut Self::Machine,
                memory: &mut [u16],
                board: &Self::Board,
                lines: Lines,
                budget: u32,
            ) -> Result<Run, Refusal> {
                machine.run(memory, board, lines, budget)
            }

            #[inline]
            fn wait(memory: &[u16], board: &Self::Board, address: u16, limit: u16) -> Result<Wait, Refusal> {
                $calls::wait(memory, board, address, limit)
            }

            #[inline]
            fn region(
                memory: &[u16],
                board: &Self::Board,
                first: u16,
                last: u16,
                limit: u16,
            ) -> Result<Region, Refusal> {
                $calls::region(memory, board, first, last, limit)
            }

            #[inline]
            fn reach(
                memory: &[u16],
                board: &Self::Board,
                entries: &[u16],
                set: &mut ReachedSet,
            ) -> Result<Reached, Refusal> {
                $calls::reach(memory, board, entries, set)
            }

            #[inline]
            fn region_reached(
                memory: &[u16],
                board: &Self::Board,
                first: u16,
                last: u16,
                limit: u16,
                set: &ReachedSet,
            ) -> Result<Region, Refusal> {
                $calls::region_reached(memory, board, first, last, limit, set)
            }

            #[inline]
            fn list(
                memory: &[u16],
                board: &Self::Board,
                address: u16,
                d: bool,
                text: &mut [u8],
            ) -> Result<Listed, Refusal> {
                $calls::list(memory, board, address, d, text)
            }

            #[inline]
            fn assemble(line: &[u8], d: bool) -> Result<Assembled, Refusal> {
                $calls::assemble(line, d)
            }

            #[inline]
            fn load(board: u16, memory: &mut [u16], file: &[u8]) -> Result<usize, Refusal> {
                $calls::load(board, memory, file)
            }

            #[inline]
            fn write(board: u16, memory: &[u16], first: u16, last: u16, room: &mut [u8]) -> Result<usize, Refusal> {
                $calls::write(board, memory, first, last, room)
            }

            #[inline]
            fn load_pair(memory: &mut [u16], bin: &[u8], cfg: &[u8]) -> Result<usize, Refusal> {
                $calls::load_pair(memory, bin, cfg)
            }

            #[inline]
            fn write_pair(
                memory: &[u16],
                first: u16,
                last: u16,
                bin: &mut [u8],
                cfg: &mut [u8],
            ) -> Result<PairLengths, Refusal> {
                $calls::write_pair(memory, first, last, bin, cfg)
            }
        }
    };
}

kit_of_crate!(
    /// The proved core, by its wrapper.
    Proved,
    "proved",
    cp1610
);

kit_of_crate!(
    /// The hand-written kit.
    Handwritten,
    "hand-written",
    handwritten
);
