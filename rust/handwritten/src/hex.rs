//! Numbers of four upper-case hexadecimal digits, as lines of text have them.

const DIGITS: &[u8; 16] = b"0123456789ABCDEF";

#[inline(always)]
pub(crate) fn digits_of(word: u16) -> [u8; 4] {
    [12, 8, 4, 0].map(|place| DIGITS[usize::from(word >> place & 15)])
}

#[inline(always)]
pub(crate) fn word_of(digits: &[u8; 4]) -> Option<u16> {
    let mut word = 0;
    for byte in digits {
        word = word << 4 | value_of(*byte)?;
    }
    Some(word)
}

#[inline(always)]
fn value_of(digit: u8) -> Option<u16> {
    match digit {
        b'0'..=b'9' => Some((digit - b'0').into()),
        b'A'..=b'F' => Some((digit - b'A' + 10).into()),
        _ => None,
    }
}
