//! A set of addresses: "one bit an address, 64 to a word, lowest bit first".

use cp1610::{Refusal, SET_WORDS};
use std::iter;

/// How many addresses a word has.
const WORD: usize = u64::BITS as usize;

pub(crate) type Bits = [u64; SET_WORDS];

/// The words of a lent buffer. Refused by 18.
pub(crate) fn bits_of(words: &[u64]) -> Result<&Bits, Refusal> {
    words.try_into().map_err(|_| Refusal::WrongSetLength)
}

/// The same, to be changed.
pub(crate) fn bits_of_mut(words: &mut [u64]) -> Result<&mut Bits, Refusal> {
    words.try_into().map_err(|_| Refusal::WrongSetLength)
}

/// Puts an address into the set; whether it is new there.
#[inline(always)]
pub(crate) fn insert(bits: &mut Bits, address: u16) -> bool {
    let word = &mut bits[usize::from(address) / WORD];
    let bit = 1 << (usize::from(address) % WORD);
    let is_new = *word & bit == 0;
    *word |= bit;
    is_new
}

/// How many addresses are in these words, of which most have none.
pub(crate) fn count(words: impl Iterator<Item = u64>) -> u32 {
    words.filter(|word| *word != 0).map(u64::count_ones).sum()
}

/// The members from `first` to `last`, the lowest first. A word without one takes a look, not 64.
#[inline(always)]
pub(crate) fn members(bits: &Bits, first: u16, last: u16) -> impl Iterator<Item = u16> {
    let [first, last] = [first, last].map(usize::from);
    (first / WORD..=last / WORD).flat_map(move |place| {
        let mut left = bits[place];
        if place == first / WORD {
            left &= u64::MAX << (first % WORD);
        }
        if place == last / WORD {
            left &= u64::MAX >> (WORD - 1 - last % WORD);
        }
        iter::from_fn(move || {
            let lowest = left & left.wrapping_neg();
            left ^= lowest;
            (lowest != 0).then(|| (place * WORD) as u16 + lowest.trailing_zeros() as u16)
        })
    })
}
