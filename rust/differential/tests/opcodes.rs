//! The outside lines of `crates/test_opcodes`, whose README says what a row is, on both kits: the words are listed, and the line is
//! assembled.

use cp1610::{Range, TEXT_ROOM};
use differential::{Handwritten, Kit, Proved};

const ROWS: &str = include_str!("../../../crates/test_opcodes/stdin");

/// The file is not cut short.
const COUNT: usize = 1_372;

/// `D | three words | words used | line`.
struct Row<'a> {
    d: bool,
    words: Vec<u16>,
    used: usize,
    line: &'a str,
}

fn row(text: &str) -> Option<Row<'_>> {
    let mut parts = text.splitn(4, " | ");
    let d = match parts.next()? {
        "0" => false,
        "1" => true,
        _ => return None,
    };
    let words = parts.next()?.split(' ').map(|word| u16::from_str_radix(word, 16).ok()).collect::<Option<_>>()?;
    Some(Row { d, words, used: parts.next()?.parse().ok()?, line: parts.next()? })
}

/// What the assembler gives back: opcode and jump words below 1,024, the two words of an immediate under D below 256.
fn cut(words: &[u16]) -> Vec<u16> {
    let opcode = words[0] % 1_024;
    let operand_end = match (opcode, words.len()) {
        (0x004, _) => 1_024,
        (_, 3) => 256,
        _ => 65_536,
    };
    let operands = words[1..].iter().map(|word| (u32::from(*word) % operand_end) as u16);
    [opcode].into_iter().chain(operands).collect()
}

fn check<K: Kit>() {
    let board = K::board(&[Range::ALL_RAM]);
    let mut count = 0;
    for text in ROWS.lines().filter(|text| !text.is_empty() && !text.starts_with('#')) {
        let Row { d, words, used, line } = row(text).unwrap_or_else(|| panic!("{text} is no row"));
        let mut room = [0; TEXT_ROOM];
        let listed = K::list(&words, &board, 0, d, &mut room).expect("memory and room are as they have to be");
        assert_eq!((&room[..listed.length], listed.words), (line.as_bytes(), used), "{text}");
        let assembled = K::assemble(line.as_bytes(), d);
        assert_eq!(assembled.map(|assembled| assembled.words().to_vec()), Ok(cut(&words[..used])), "{text}");
        count += 1;
    }
    assert_eq!(count, COUNT);
}

#[test]
fn proved() {
    check::<Proved>();
}

#[test]
fn handwritten() {
    check::<Handwritten>();
}
