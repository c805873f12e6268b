//! Two equal buffers, one lent to each kit, with guards around them.

use crate::random::Random;
use std::fmt::Debug;

/// Items before and after what is lent.
const GUARD: usize = 4;

/// A buffer for each kit. The guards hold random items; a call that changes one shows as a difference.
pub struct Twin<T> {
    ours: Vec<T>,
    theirs: Vec<T>,
}

/// An item that random bits can make.
pub trait Item: Copy + PartialEq + Debug {
    fn of(bits: u64) -> Self;
}

impl Item for u8 {
    fn of(bits: u64) -> u8 {
        bits as u8
    }
}

impl Item for u16 {
    fn of(bits: u64) -> u16 {
        bits as u16
    }
}

impl Item for u32 {
    fn of(bits: u64) -> u32 {
        bits as u32
    }
}

impl Item for u64 {
    /// A draw has 48 bits, so the highest 32 take up the lowest, too.
    fn of(bits: u64) -> u64 {
        bits ^ bits << 32
    }
}

/// A length at which a call takes a buffer, the least or more; now and then one at which it does not.
pub fn any_length(random: &mut Random, least: usize) -> usize {
    if random.one_in(32) { random.size_below(least) } else { least + random.size_below(4) }
}

/// A room around the length of a file that is to be written into it.
pub fn any_file_room(random: &mut Random, length: usize) -> usize {
    match random.below(8) {
        0 => length - 1,
        1 => random.size_below(length),
        2 => length,
        _ => length + random.size_below(8),
    }
}

impl<T: Item> Twin<T> {
    pub fn of(random: &mut Random, items: &[T]) -> Twin<T> {
        let mut guard = || (0..GUARD).map(|_| T::of(random.any())).collect::<Vec<T>>();
        let ours = [&guard(), items, &guard()].concat();
        Twin { theirs: ours.clone(), ours }
    }

    /// A buffer of random items.
    pub fn any(random: &mut Random, length: usize) -> Twin<T> {
        let items: Vec<T> = (0..length).map(|_| T::of(random.any())).collect();
        Twin::of(random, &items)
    }

    /// A buffer for an answer, of which the call needs the first `least` items.
    pub fn room(random: &mut Random, least: usize) -> Twin<T> {
        let length = any_length(random, least);
        Twin::any(random, length)
    }

    pub fn len(&self) -> usize {
        self.ours.len() - 2 * GUARD
    }

    /// What the proved core is lent.
    pub fn ours(&mut self) -> &mut [T] {
        let end = GUARD + self.len();
        &mut self.ours[GUARD..end]
    }

    /// What the hand-written kit is lent.
    pub fn theirs(&mut self) -> &mut [T] {
        let end = GUARD + self.len();
        &mut self.theirs[GUARD..end]
    }

    /// What both have, once they were compared.
    pub fn items(&self) -> &[T] {
        &self.ours[GUARD..GUARD + self.len()]
    }

    /// Panics where the two differ, naming the first place; a place before 0 or past the length is a guard's.
    pub fn assert_equal(&self, call: &str, buffer: &str) {
        if self.ours == self.theirs {
            return;
        }
        let differs = self.ours.iter().zip(&self.theirs).position(|(a, b)| a != b);
        let at = differs.expect("both have the same length");
        panic!(
            "{call}: the {buffer} of {} items differs at {}: proved {:X?}, hand-written {:X?}",
            self.len(),
            at as isize - GUARD as isize,
            self.ours[at],
            self.theirs[at]
        );
    }
}
