//! The reached set: the addresses that paths from some entries lead to, each with the D that it is reached with, over unchanged memory.

use crate::bits::{Bits, bits_of_mut, count, insert, members};
use crate::board::Board;
use crate::memory::Words;
use crate::opcode::{
    HLT, JUMP, NO_RETURN, OPCODES, R7, SDBD, UNSPECIFIED, branch_target, by_opcode, destination, is_nopp,
    is_stack_read, jump_at, opcode_at, row,
};
use cp1610::{MOST_ENTRIES, Reached, ReachedSet, Refusal, SET_WORDS};

/// Puts into `set` where paths from the entries lead, and says how many addresses that are and where paths end by a write to R7.
///
/// # Errors
///
/// Refused by 1, 14, 17 and 18, in this order.
pub fn reach(memory: &[u16], board: &Board, entries: &[u16], set: &mut ReachedSet) -> Result<Reached, Refusal> {
    let words = Words::new(memory, board)?;
    if entries.len() > MOST_ENTRIES {
        return Err(Refusal::TooManyEntries);
    }
    let [clear, set] = set.words_mut();
    let mut search = Search::new(words, bits_of_mut(clear)?, bits_of_mut(set)?);
    for entry in entries {
        search.reach(*entry);
    }
    while let Some(start) = search.waiting.pop() {
        search.follow(start);
    }
    Ok(search.summary())
}

/// Where a path goes behind an instruction, as far as opcode and D decide it.
#[derive(Clone, Copy)]
enum Way {
    Onward,
    /// To the target of a branch that is always taken.
    Target,
    /// Both ways of any other branch.
    Fork,
    Jump,
    /// HLT, or a stack read under D.
    End,
    /// A row that writes its result to R7.
    R7Write,
}

const fn way(w: u16, d: bool) -> Way {
    match w {
        HLT => Way::End,
        JUMP => Way::Jump,
        0x200..=0x23F if is_always_taken(w) => Way::Target,
        0x200..=0x23F if !is_nopp(w) => Way::Fork,
        _ if d && is_stack_read(w) => Way::End,
        _ if writes_r7(w) => Way::R7Write,
        _ => Way::Onward,
    }
}

/// 200 and 220.
const fn is_always_taken(w: u16) -> bool {
    w & 0x1F == 0
}

/// INCR DECR COMR NEGR ADCR, MOVR ADDR SUBR ANDR XORR and MVI ADD SUB AND XOR with d = 7, so not the compares, which write no register.
const fn writes_r7(w: u16) -> bool {
    let writes = matches!(w, 0x008..=0x02F | 0x080..=0x13F | 0x180..=0x1FF | 0x280..=0x33F | 0x380..=0x3FF);
    writes && destination(w) == R7
}

/// What a path needs of an opcode, in one look.
#[derive(Clone, Copy)]
struct Step {
    way: Way,
    words: u8,
}

const fn step(w: u16, d: bool) -> Step {
    Step { way: way(w, d), words: row(w, d).words }
}

/// With D clear, and with D set.
static STEPS: [[Step; OPCODES]; 2] = [by_opcode!(step, false), by_opcode!(step, true)];

struct Search<'a> {
    words: Words<'a>,
    /// What was reached so far with D clear, and with D set.
    reached: [&'a mut Bits; 2],
    r7_writers: Bits,
    /// The addresses that were reached with D clear from elsewhere than the address before, and that no path was followed from yet.
    waiting: Vec<u16>,
}

impl<'a> Search<'a> {
    fn new(words: Words<'a>, clear: &'a mut Bits, set: &'a mut Bits) -> Search<'a> {
        clear.fill(0);
        set.fill(0);
        Search { words, reached: [clear, set], r7_writers: [0; SET_WORDS], waiting: Vec::new() }
    }

    /// Marks an address that a path leads to with D clear, and notes it where it is new.
    #[inline(always)]
    fn reach(&mut self, address: u16) {
        if insert(self.reached[0], address) {
            self.waiting.push(address);
        }
    }

    /// Follows the path from an address that is marked, up to its end or to where one has been.
    fn follow(&mut self, start: u16) {
        let (mut at, mut d) = (start, false);
        loop {
            let w = opcode_at(self.words, at);
            let Step { way, words } = STEPS[usize::from(d)][usize::from(w)];
            let onward = at.wrapping_add(words.into());
            at = match way {
                Way::Onward => onward,
                Way::Target => branch_target(self.words, at, w),
                Way::Fork => {
                    self.reach(branch_target(self.words, at, w));
                    onward
                }
                Way::Jump => {
                    let jump = jump_at(self.words, at);
                    if jump.bits == UNSPECIFIED {
                        return;
                    }
                    if jump.return_field != NO_RETURN {
                        self.reach(onward);
                    }
                    jump.target
                }
                Way::End => return,
                Way::R7Write => {
                    insert(&mut self.r7_writers, at);
                    return;
                }
            };
            d = w == SDBD;
            if !insert(self.reached[usize::from(d)], at) {
                return;
            }
        }
    }

    /// "how many addresses are in it, each once"
    fn summary(&self) -> Reached {
        let [clear, set] = &self.reached;
        Reached {
            addresses: count(clear.iter().zip(set.iter()).map(|(clear, set)| clear | set)),
            r7_writers: count(self.r7_writers.iter().copied()),
            lowest_r7_writer: members(&self.r7_writers, 0, u16::MAX).next(),
        }
    }
}
