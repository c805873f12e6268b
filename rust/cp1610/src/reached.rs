//! A set of reached addresses.

use crate::SET_WORDS;

/// How many addresses a word of a set has.
const WORD_ADDRESSES: usize = u64::BITS as usize;

/// The addresses that paths lead to, each with the D that it is reached with: D clear, D set, or both. Those that are reached with D clear are
/// where waits can start; behind an SDBD nothing is heard, so that a wait there has begun before it.
///
/// A set can be made from any words. Words of another number than [1,024](crate::SET_WORDS), of either D, are refused where the set is
/// lent, by [`Refusal::WrongSetLength`](crate::Refusal::WrongSetLength).
///
/// ```
/// use cp1610::{ReachedSet, SET_WORDS};
///
/// let mut words = [0; SET_WORDS];
/// words[0x5001 / 64] = 1 << (0x5001 % 64);
/// let set = ReachedSet::from_words(&words, &[0; SET_WORDS]);
/// assert!(set.contains(0x5001, false) && !set.contains(0x5001, true));
/// assert!(set.addresses(false).eq([0x5001]));
/// ```
#[derive(Clone, Debug, PartialEq, Eq, Hash)]
pub struct ReachedSet {
    /// As the C interface has them: those of D clear, then those of D set.
    words: [Box<[u64]>; 2],
}

impl ReachedSet {
    /// The set without an address.
    pub fn new() -> ReachedSet {
        ReachedSet::from_words(&[0; SET_WORDS], &[0; SET_WORDS])
    }

    /// The set that these words stand for, those of D clear and those of D set: address a is bit a modulo 64 of word a / 64.
    pub fn from_words(clear: &[u64], set: &[u64]) -> ReachedSet {
        ReachedSet { words: [clear.into(), set.into()] }
    }

    /// Whether the address is reached with D as given.
    pub fn contains(&self, address: u16, d: bool) -> bool {
        let (place, bit) = (usize::from(address) / WORD_ADDRESSES, usize::from(address) % WORD_ADDRESSES);
        self.words(d).get(place).is_some_and(|word| word >> bit & 1 != 0)
    }

    /// The addresses that are reached with D as given, the lowest first.
    pub fn addresses(&self, d: bool) -> impl Iterator<Item = u16> {
        let firsts = (0..=u16::MAX).step_by(WORD_ADDRESSES);
        let words = self.words(d).iter().zip(firsts).filter(|(word, _)| **word != 0);
        let bits = 0..WORD_ADDRESSES as u16;
        words.flat_map(move |(word, first)| {
            bits.clone().filter(move |bit| word >> bit & 1 != 0).map(move |bit| first + bit)
        })
    }

    /// The words of one D.
    pub fn words(&self, d: bool) -> &[u64] {
        &self.words[usize::from(d)]
    }

    /// The words of D clear and those of D set, to be changed.
    pub fn words_mut(&mut self) -> [&mut [u64]; 2] {
        self.words.each_mut().map(|words| &mut **words)
    }
}

impl Default for ReachedSet {
    fn default() -> ReachedSet {
        ReachedSet::new()
    }
}
