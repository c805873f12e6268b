//! The reached set by its definition, on small memories and on both kits: from the lines that the lister prints, each address is reached
//! that a reached one leads to, until there is none more. The meter of a set's members is held against the waits of each.

use crate::code::any_code;
use crate::kit::{Handwritten, Kit, Proved};
use crate::map::Map;
use crate::random::Random;
use crate::scene::any_address;
use cp1610::{Longest, Range, Reached, ReachedSet, Region, SET_WORDS, TEXT_ROOM, Wait};
use std::collections::BTreeSet;

const SEED: u64 = 1_610;
const MEMORIES: usize = 3_000;

/// Rows that write their result to the register that stands last.
const WRITERS: [&str; 25] = [
    "INCR", "DECR", "COMR", "NEGR", "ADCR", "MOVR", "ADDR", "SUBR", "ANDR", "XORR", "MVI", "ADD", "SUB", "AND", "XOR",
    "MVI@", "ADD@", "SUB@", "AND@", "XOR@", "MVII", "ADDI", "SUBI", "ANDI", "XORI",
];

/// Reads through R6 are unspecified under D; the lister prints them as without it.
const POINTER_READS: [&str; 6] = ["MVI@", "ADD@", "SUB@", "CMP@", "AND@", "XOR@"];

/// Branches that go both ways.
const FORKS: [&str; 15] =
    ["BC", "BOV", "BPL", "BEQ", "BLT", "BLE", "BUSC", "BNC", "BNOV", "BMI", "BNEQ", "BGE", "BGT", "BESC", "BEXT"];

/// An address, and the D that it is reached with.
pub(crate) type Node = (u16, bool);

/// What comes behind an instruction.
pub(crate) enum Ways {
    To(Vec<Node>),
    /// Nothing, or nothing that is known, as its result goes to R7.
    End {
        writes_r7: bool,
    },
}

/// What the line of an instruction says of where a path goes behind it.
pub(crate) fn ways((at, d): Node, line: &str, onward: Node) -> Ways {
    let (name, operands) = line.split_once(' ').unwrap_or((line, ""));
    match name {
        "HLT" | "DECLE" => Ways::End { writes_r7: false },
        "J" | "JE" | "JD" => Ways::To(vec![(number(operands), false)]),
        "JSR" | "JSRE" | "JSRD" => Ways::To(vec![(number(operands), false), onward]),
        "B" => Ways::To(vec![(branch_target(at, operands), false)]),
        _ if FORKS.contains(&name) => Ways::To(vec![(branch_target(at, operands), false), onward]),
        _ if d && POINTER_READS.contains(&name) && operands.starts_with("R6,") => Ways::End { writes_r7: false },
        _ if WRITERS.contains(&name) && operands.ends_with("R7") => Ways::End { writes_r7: true },
        _ => Ways::To(vec![onward]),
    }
}

/// The number behind the dollar sign.
fn number(operands: &str) -> u16 {
    let digits = operands.split_once('$').expect("there is a number").1;
    u16::from_str_radix(digits, 16).expect("it has four digits")
}

fn branch_target(at: u16, operands: &str) -> u16 {
    let displacement = number(operands);
    if operands.contains('-') {
        at.wrapping_add(1).wrapping_sub(displacement)
    } else {
        at.wrapping_add(2).wrapping_add(displacement)
    }
}

/// A memory and a board of a kit.
pub(crate) struct Code<'a, K: Kit> {
    pub(crate) memory: &'a [u16],
    pub(crate) board: K::Board,
}

impl<'a, K: Kit> Code<'a, K> {
    pub(crate) fn new(memory: &'a [u16], ranges: &[Range]) -> Code<'a, K> {
        Code { memory, board: K::board(ranges) }
    }

    /// The line of an instruction, and the node directly behind it.
    pub(crate) fn line(&self, (at, d): Node) -> (String, Node) {
        let mut text = [0; TEXT_ROOM];
        let listed = K::list(self.memory, &self.board, at, d, &mut text).expect("memory and board are good");
        let line = str::from_utf8(&text[..listed.length]).expect("a line is plain text");
        (line.into(), (at.wrapping_add(listed.words as u16), listed.next_d))
    }

    /// All that is reached, and at which addresses R7 is written.
    fn reached(&self, entries: &[u16]) -> (BTreeSet<Node>, BTreeSet<u16>) {
        let mut nodes: BTreeSet<Node> = entries.iter().map(|entry| (*entry, false)).collect();
        loop {
            let (mut next, mut writers) = (nodes.clone(), BTreeSet::new());
            for node in &nodes {
                let (line, onward) = self.line(*node);
                match ways(*node, &line, onward) {
                    Ways::To(more) => next.extend(more),
                    Ways::End { writes_r7: true } => _ = writers.insert(node.0),
                    Ways::End { .. } => {}
                }
            }
            if next == nodes {
                return (nodes, writers);
            }
            nodes = next;
        }
    }

    /// The waits of the addresses, one after the other.
    fn region(&self, starts: impl Iterator<Item = u16>, limit: u16) -> Region {
        let mut region = Region { longest: None, over: None };
        for start in starts {
            match K::wait(self.memory, &self.board, start, limit).expect("memory, board and limit are good") {
                Wait::Wait { cycles } if region.longest.is_none_or(|longest| longest.cycles < cycles) => {
                    region.longest = Some(Longest { cycles, start });
                }
                Wait::Over => region.over = region.over.or(Some(start)),
                _ => {}
            }
        }
        region
    }

    /// Holds the kit's set against the definition, and answers it. The set that is lent has every address.
    fn check_set(&self, entries: &[u16]) -> ReachedSet {
        let (nodes, writers) = self.reached(entries);
        let addresses: BTreeSet<u16> = nodes.iter().map(|(at, _)| *at).collect();
        let mut set = ReachedSet::from_words(&[u64::MAX; SET_WORDS], &[u64::MAX; SET_WORDS]);
        let reached = K::reach(self.memory, &self.board, entries, &mut set);
        let wanted = Reached {
            addresses: addresses.len() as u32,
            r7_writers: writers.len() as u32,
            lowest_r7_writer: writers.first().copied(),
        };
        let code = format!("{:04X?} from {entries:04X?} with the {} kit", self.memory, K::NAME);
        assert_eq!(reached, Ok(wanted), "{code}");
        for d in [false, true] {
            let wanted = nodes.iter().filter(|node| node.1 == d).map(|(at, _)| *at);
            assert!(words_of(wanted) == set.words(d), "{code}: {nodes:04X?}");
        }
        set
    }
}

/// "one bit an address, 64 to a word, lowest bit first"
fn words_of(addresses: impl Iterator<Item = u16>) -> [u64; SET_WORDS] {
    let mut words = [0; SET_WORDS];
    for address in addresses {
        words[usize::from(address) / 64] |= 1 << (address % 64);
    }
    words
}

/// Each opcode with D clear and with D set, with second words that make a jump of each kind, and with targets before and behind it.
fn check_opcodes<K: Kit>() {
    for opcode in 0..0x400 {
        for second in [0x0000, 0x0001, 0x0102, 0x0203, 0x0300, 0x0303, 0xFC02, 0xFFFF] {
            let memory = [0x034, 0x001, opcode, second, 0x003, 0x034, 0x036, 0x000, 0x034];
            for entry in [1, 2] {
                Code::<K>::new(&memory, &[Range::ALL_RAM]).check_set(&[entry]);
            }
        }
    }
}

/// Any code under any map, from any entries, and then the members of any region.
fn check_memories<K: Kit>() {
    let mut random = Random::new(SEED);
    for _ in 0..MEMORIES {
        let length = random.size_below(64);
        let memory = any_code(&mut random, length);
        let map = Map::good(&mut random, |random| any_address(random, length));
        let code = Code::<K>::new(&memory, map.ranges());
        let entries: Vec<u16> = (0..random.size_below(4)).map(|_| any_address(&mut random, length)).collect();
        let set = code.check_set(&entries);
        let [a, b] = [any_address(&mut random, length), any_address(&mut random, length)];
        let (first, last, limit) = (a.min(b), a.max(b), 1 + random.below(60) as u16);
        let members = (first..=last).filter(|address| set.contains(*address, false));
        assert_eq!(
            K::region_reached(&memory, &code.board, first, last, limit, &set),
            Ok(code.region(members, limit)),
            "{memory:04X?} with the {} kit",
            K::NAME
        );
    }
}

#[test]
fn each_opcode_leads_where_its_line_says() {
    check_opcodes::<Proved>();
    check_opcodes::<Handwritten>();
}

#[test]
fn small_memories_are_reached_as_defined() {
    check_memories::<Proved>();
    check_memories::<Handwritten>();
}
