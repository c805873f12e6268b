//! Damage to a file or a line that was good.

use crate::random::Random;

/// A byte more, fewer bytes, a byte less, or another byte in the place of one: any, one of those that are usual in such a text, or its
/// neighbour. The text is not empty.
pub fn damage(random: &mut Random, text: &mut Vec<u8>, usual: &[u8]) {
    let at = random.size_below(text.len());
    let byte = random.pick(usual);
    match random.below(7) {
        0 => text.insert(at, byte),
        1 => text.push(byte),
        2 => text.truncate(at),
        3 => _ = text.remove(at),
        4 => text[at] = random.byte(),
        5 => text[at] = byte,
        _ => text[at] = text[at].wrapping_add(random.pick(&[1, u8::MAX])),
    }
}
