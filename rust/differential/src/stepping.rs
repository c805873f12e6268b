//! The reached set beside the processor's step: over code in ROM a machine that starts at an entry is at a member of the set, with its D,
//! before each of its steps, up to where a path ends. Where a row that writes R7 leads to the return address of a JSR that the machine
//! has made, it goes on. This guards one direction, that no machine leaves the set. One that has too much, as where B went on too, passes
//! here; `fixpoint` finds it.

use crate::code::any_code;
use crate::fixpoint::{Code, Node, Ways, ways};
use crate::kit::{Handwritten, Kit, Proved};
use crate::random::Random;
use crate::scene::any_address;
use cp1610::{LINE_WORDS, LONGEST_MEMORY, Lines, Mark, Range, ReachedSet, Refusal, Register, StateWords, Step};
use std::collections::{BTreeMap, BTreeSet};
use std::ops::RangeInclusive;

const SEED: u64 = 1_610;
const MEMORIES: usize = 20_000;
const RAM_WORDS: u16 = 16;

/// How many machines start at each entry, and how many steps each makes at the most.
const MACHINES: usize = 8;
const STEPS: usize = 200;

/// The cycles of a branch that is taken.
const TAKEN: u32 = 9;

/// The opcodes that a path goes on behind, with D clear and with D set: all but HLT and the 85 that write their result to R7, and under D
/// but the 48 that read through R6, five of which are among the 85.
const OPCODES_PASSED: [usize; 2] = [1_024 - 1 - 85, 1_024 - 1 - 85 - 48 + 5];

/// The branches that are not taken, B's two opcodes left out, and those that are, NOPP's two left out.
const BRANCHES_PASSED: [usize; 2] = [62, 62];

/// Where the set says no more of a machine.
#[derive(Clone, Copy, Debug, PartialEq, Eq, PartialOrd, Ord)]
enum End {
    Halted,
    Unspecified,
    /// A row has written R7, so that it can be anywhere.
    R7Written,
    /// Stores can have changed the next instruction.
    InRam,
    /// It made all its steps.
    OutOfSteps,
}

const ENDS: usize = 5;

/// What the machines met.
#[derive(Debug, Default)]
struct Tally {
    steps: u64,
    /// The opcodes behind which a machine went on, with D clear and with D set.
    opcodes: [BTreeSet<u16>; 2],
    /// The opcodes of branches that were not taken, and that were.
    branches: [BTreeSet<u16>; 2],
    /// How often a row that writes R7 led to the return address of a JSR.
    returns: u64,
    /// How often a machine went on from the highest address to the lowest.
    wraps: u64,
    ends: BTreeMap<End, u64>,
}

impl Tally {
    fn count_passed(&mut self, (at, d): Node, word: u16, step: Step, next: Node) {
        let opcode = word % 1_024;
        self.steps += 1;
        self.opcodes[usize::from(d)].insert(opcode);
        if (0x200..0x240).contains(&opcode) {
            self.branches[usize::from(step.cycles == TAKEN)].insert(opcode);
        }
        self.wraps += u64::from((at, next.0) == (u16::MAX, 0));
    }

    fn assert_complete(&self) {
        assert_eq!(self.opcodes.each_ref().map(BTreeSet::len), OPCODES_PASSED);
        assert_eq!(self.branches.each_ref().map(BTreeSet::len), BRANCHES_PASSED);
        assert_eq!(self.ends.len(), ENDS);
        assert!(self.returns > 0 && self.wraps > 0);
    }
}

/// Code in ROM, some words of which are RAM, and what is reached from its entries.
struct Cartridge<'a, K: Kit> {
    code: Code<'a, K>,
    ram: RangeInclusive<u16>,
    entries: Vec<u16>,
    set: ReachedSet,
}

impl<'a, K: Kit> Cartridge<'a, K> {
    fn new(random: &mut Random, memory: &'a [u16]) -> Cartridge<'a, K> {
        let mut any_address = || any_address(random, memory.len());
        let first = any_address();
        let last = first.saturating_add(RAM_WORDS - 1);
        let entries = vec![any_address(), any_address(), any_address()];
        let code = Code::new(memory, &[Range::ram16(first, last), Range::rom(0, u16::MAX)]);
        let mut set = ReachedSet::new();
        K::reach(memory, &code.board, &entries, &mut set).expect("memory, board and entries are good");
        Cartridge { code, ram: first..=last, entries, set }
    }

    /// Whether one of the words of an instruction there can be RAM.
    fn is_in_ram(&self, at: u16) -> bool {
        (0..LINE_WORDS as u16).any(|n| self.ram.contains(&at.wrapping_add(n)))
    }

    fn word_at(&self, at: u16) -> u16 {
        self.code.memory.get(usize::from(at)).copied().unwrap_or(0xFFFF)
    }

    /// Makes the steps of a machine that starts at an entry.
    fn step_from(&self, entry: u16, random: &mut Random, tally: &mut Tally) -> End {
        let mut memory = self.code.memory.to_vec();
        let mut machine = K::from_words(&any_machine(random, entry, memory.len()));
        let (mut node, mut returns) = ((entry, false), BTreeSet::new());
        for _ in 0..STEPS {
            let (line, onward) = self.code.line(node);
            assert!(self.set.contains(node.0, node.1), "{line} at {node:04X?} is not in the {} kit's set", K::NAME);
            if self.is_in_ram(node.0) {
                return End::InRam;
            }
            let lines = Lines { external: random.word(), ..Lines::QUIET };
            let step = match K::step(&mut machine, &mut memory, &self.code.board, lines) {
                Err(Refusal::Unspecified) => return End::Unspecified,
                step => step.expect("the machine is not halted"),
            };
            let words = K::to_words(&machine);
            let next = node_of(&words);
            if line.starts_with("JSR") {
                returns.insert(onward);
            }
            match ways(node, &line, onward) {
                _ if words[Mark::Halted as usize] != 0 => return End::Halted,
                Ways::End { writes_r7: true } if returns.contains(&next) => tally.returns += 1,
                Ways::End { writes_r7: true } => return End::R7Written,
                _ => tally.count_passed(node, self.word_at(node.0), step, next),
            }
            node = next;
        }
        End::OutOfSteps
    }
}

/// Where a machine is.
fn node_of(words: &StateWords) -> Node {
    (words[Register::R7 as usize], words[Mark::D as usize] != 0)
}

/// A machine at an entry, of any registers and flags, with D clear and no request.
fn any_machine(random: &mut Random, entry: u16, length: usize) -> StateWords {
    let mut words: StateWords =
        std::array::from_fn(|n| if n < 8 { any_address(random, length) } else { random.below(2) as u16 });
    words[Register::R7 as usize] = entry;
    for (mark, word) in [(Mark::D, 0), (Mark::Halted, 0), (Mark::Ready, 0), (Mark::Level, 1), (Mark::Pending, 0)] {
        words[mark as usize] = word;
    }
    words
}

fn check_machines<K: Kit>() {
    let mut random = Random::new(SEED);
    let mut tally = Tally::default();
    for _ in 0..MEMORIES {
        let length = if random.one_in(256) { LONGEST_MEMORY } else { random.size_below(512) };
        let memory = any_code(&mut random, length);
        let cartridge = Cartridge::<K>::new(&mut random, &memory);
        for entry in cartridge.entries.repeat(MACHINES) {
            let end = cartridge.step_from(entry, &mut random, &mut tally);
            *tally.ends.entry(end).or_default() += 1;
        }
    }
    println!("{} kit: {} steps, {} returns, {} wraps", K::NAME, tally.steps, tally.returns, tally.wraps);
    println!("ended {:?}", tally.ends);
    tally.assert_complete();
}

#[test]
fn no_machine_leaves_the_set() {
    check_machines::<Proved>();
    check_machines::<Handwritten>();
}
