//! The programs that are run, as the lister's lines.

use cp1610::{LONGEST_MEMORY, Mark, Range, STATE_WORDS, StateWords};

/// The board that image files are for.
pub const BOARD: u16 = 2;

const START: u16 = 0x1000;
const SUBROUTINE: u16 = 0x1800;

/// Adds, subtracts and logic between registers, and one branch back.
const ALU: &[&str] = &["ADDR R1,R0", "SUBR R2,R0", "XORR R0,R3", "ANDR R3,R1", "INCR R2", "B -$0006"];

/// Copies $400 words through R4 and R5, again and again.
const COPY: &[&str] = &[
    "MVII #$2000,R4",
    "MVII #$3000,R5",
    "MVII #$0400,R3",
    "MVI@ R4,R0",
    "MVO@ R0,R5",
    "DECR R3",
    "BNEQ -$0004",
    "B -$000C",
];

/// The load of `bench/run.c`: SDBD immediates, direct, R4, the stack, a call, branches, shifts, the status word.
const MIXED: &[&str] = &[
    "MVII #$0200,R4",
    "MVII #$ACE1,R0",
    "SDBD",
    "MVII #$1234,R1",
    "ADDR R0,R1",
    "MVO@ R1,R4",
    "ANDI #$03FF,R4",
    "RLC R1",
    "XORR R1,R0",
    "ADDI #$9E37,R0",
    "CMPI #$8000,R0",
    "BC +$0001",
    "INCR R2",
    "JSR R5,$1800",
    "MVI@ R4,R3",
    "DECR R4",
    "MOVR R3,R3",
    "BPL +$0001",
    "INCR R3",
    "MVO R0,$0300",
    "MVI $0300,R2",
    "SWAP R2",
    "BEXT 0,+$0001",
    "B -$0022",
];

/// What the mixed program calls.
const MIXED_SUBROUTINE: &[&str] =
    &["MVO@ R5,R6", "NEGR R1", "ADCR R1", "GSWD R3", "RSWD R3", "SUBR R1,R0", "RLC R1,2", "COMR R1", "MVI@ R6,R7"];

/// The rows that shift through carry, by one and by two.
const CARRY: &[&str] = &["RLC R0", "RLC R1,2", "SLLC R2", "SLLC R3,2", "RRC R0", "RRC R1,2", "SARC R2", "SARC R3,2"];

/// A whole memory with a program in it, and the words of a machine that starts on it.
#[derive(Clone)]
pub struct Program {
    pub memory: Vec<u16>,
    pub state: StateWords,
}

fn assembled(lines: &[&str]) -> Vec<u16> {
    let mut words = Vec::new();
    let mut d = false;
    for line in lines {
        let assembled = handwritten::assemble(line.as_bytes(), d).unwrap_or_else(|refusal| panic!("{line}: {refusal}"));
        words.extend_from_slice(assembled.words());
        d = *line == "SDBD";
    }
    words
}

/// R4 and R5 on data, R6 on the stack, R7 on the program; INTRM was high.
fn program(parts: &[(u16, &[&str])]) -> Program {
    let mut memory = vec![0; LONGEST_MEMORY];
    for &(at, lines) in parts {
        let words = assembled(lines);
        memory[usize::from(at)..][..words.len()].copy_from_slice(&words);
    }
    let mut state = [0; STATE_WORDS];
    state[..8].copy_from_slice(&[0, 0, 0, 0, 0x0200, 0x0200, 0x0300, START]);
    state[Mark::Level as usize] = 1;
    Program { memory, state }
}

pub fn alu() -> Program {
    program(&[(START, ALU)])
}

pub fn copy() -> Program {
    program(&[(START, COPY)])
}

pub fn mixed() -> Program {
    program(&[(START, MIXED), (SUBROUTINE, MIXED_SUBROUTINE)])
}

/// Lines that fill the memory again and again, with no branch. Each of their registers starts on a word of ones and zeros.
fn repeated(lines: &[&str]) -> Program {
    let mut program = program(&[]);
    program.memory = assembled(lines).into_iter().cycle().take(LONGEST_MEMORY).collect();
    program.state[..4].fill(0xACE1);
    program
}

pub fn carry() -> Program {
    repeated(CARRY)
}

/// One of the rows that shift through carry, alone.
pub fn carry_row(n: usize) -> Program {
    repeated(&CARRY[n..=n])
}

/// The map of six ranges of `bench/drive.c`, as a console has them. The mixed program's code lies in ROM, its data in 16-bit RAM.
pub const SIX_RANGES: [Range; 6] = [
    Range::ram16(0x0000, 0x03FF),
    Range::ram8(0x0400, 0x04FF),
    Range::rom(0x1000, 0x1FFF),
    Range::rom(0x3000, 0x37FF),
    Range::ram8(0x3800, 0x39FF),
    Range::rom(0x5000, 0x6FFF),
];

/// The map of sixteen ranges there: 15 words that no program meets, and all-RAM as the last, which decides.
pub fn sixteen_ranges() -> Vec<Range> {
    let words = (0xFFF0..0xFFFF).map(|at| Range::rom(at, at));
    words.chain([Range::ALL_RAM]).collect()
}

/// A whole memory of made-up words, the same on every machine.
pub fn made_up_words() -> Vec<u16> {
    let mut x: u32 = 12_345;
    let mut next = || {
        x = x.wrapping_mul(1_664_525).wrapping_add(1_013_904_223);
        (x >> 16) as u16
    };
    (0..LONGEST_MEMORY).map(|_| next()).collect()
}

/// The ends of each region of so many words in a whole memory, and a room for what is made of it.
pub fn regions<R: Clone>(words: usize, room: &R) -> Vec<(u16, u16, R)> {
    let firsts = (0..LONGEST_MEMORY).step_by(words);
    firsts.map(|first| (first as u16, (first + words - 1) as u16, room.clone())).collect()
}

/// A whole memory of made-up opcodes. Seven out of eight that name R7 name R6 instead, so that most paths go on.
pub fn made_up_code() -> Vec<u16> {
    let opcode = |word| if word % 8 == 7 && word < 0xE000 { word - 1 } else { word } % 0x400;
    made_up_words().into_iter().map(opcode).collect()
}
