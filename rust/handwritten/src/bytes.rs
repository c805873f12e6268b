//! Words as the bytes of a file, high byte first.

/// The bytes of a word.
pub(crate) const WORD: usize = 2;

pub(crate) fn words(bytes: &[u8]) -> impl Iterator<Item = u16> {
    bytes.as_chunks().0.iter().map(|pair| u16::from_be_bytes(*pair))
}

/// Puts the words of these bytes into a memory that has room for them from the address on.
#[inline]
pub(crate) fn load_words(memory: &mut [u16], address: u16, bytes: &[u8]) {
    let places = &mut memory[address.into()..][..bytes.len() / WORD];
    for (place, word) in places.iter_mut().zip(words(bytes)) {
        *place = word;
    }
}

/// What of a file is still to be written, in a room that was measured.
pub(crate) struct Room<'a>(pub &'a mut [u8]);

impl<'a> Room<'a> {
    #[inline]
    pub fn put(&mut self, bytes: &[u8]) {
        self.take(bytes.len()).copy_from_slice(bytes);
    }

    /// Puts the words, and answers their sum.
    #[inline]
    pub fn put_words(&mut self, words: &[u16]) -> u16 {
        let mut sum = 0u16;
        for (pair, word) in self.take(WORD * words.len()).as_chunks_mut().0.iter_mut().zip(words) {
            *pair = word.to_be_bytes();
            sum = sum.wrapping_add(*word);
        }
        sum
    }

    fn take(&mut self, length: usize) -> &'a mut [u8] {
        self.0.split_off_mut(..length).expect("the room was measured")
    }
}
