//! Image files that neither kit has written: of any records, and of a region that is cut as one likes.

/// The most words of a record up to interface 5, at which the writer cut.
pub const OLD_RECORD_WORDS: usize = 1_024;

/// An image file in the making, and its sum.
pub struct ImageFile {
    bytes: Vec<u8>,
    sum: u16,
}

impl ImageFile {
    /// The head of a file for a board.
    pub fn new(board: u16) -> ImageFile {
        let mut file = ImageFile { bytes: Vec::new(), sum: 0 };
        file.mark(b"ID");
        file.number(board);
        file
    }

    /// Adds a record of these words, of which its count says how many.
    pub fn record(&mut self, address: u16, words: &[u16]) {
        self.mark(b"AT");
        self.number(address);
        self.number(words.len() as u16);
        for word in words {
            self.number(*word);
        }
    }

    /// The file, with a right sum.
    pub fn finish(mut self) -> Vec<u8> {
        self.mark(b"OK");
        self.number(self.sum);
        self.bytes
    }

    fn mark(&mut self, mark: &[u8; 2]) {
        self.bytes.extend_from_slice(mark);
    }

    fn number(&mut self, number: u16) {
        self.bytes.extend_from_slice(&number.to_be_bytes());
        self.sum = self.sum.wrapping_add(number);
    }
}

/// The file of the words from the address `first` on, in full records of `cut` words, the last perhaps shorter.
pub fn file_of_region(board: u16, first: u16, words: &[u16], cut: usize) -> Vec<u8> {
    let mut file = ImageFile::new(board);
    for (n, record) in words.chunks(cut).enumerate() {
        file.record(first + (n * cut) as u16, record);
    }
    file.finish()
}

/// The length of the file of so many words in such records.
pub const fn length_of(words: usize, cut: usize) -> usize {
    8 + 2 * words + 6 * words.div_ceil(cut)
}
