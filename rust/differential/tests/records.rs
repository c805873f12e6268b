//! Document 02, "Longer records", on both kits: one region in records of 1,024 words and in records of 4,096, loaded alike into equal
//! memory; the writers' cut; and each count up to the limit, and some that are refused.

use cp1610::{LONGEST_MEMORY, RECORD_WORDS, Refusal};
use differential::images::{ImageFile, OLD_RECORD_WORDS, file_of_region, length_of};
use differential::{Handwritten, Kit, Proved};

const BOARD: u16 = 2;

/// What memory holds where nothing was loaded.
const FILL: u16 = 0x5A5A;

/// The lengths of regions: around the old limit, around one and two full records, and the longest.
const LENGTHS: [usize; 15] = [
    1,
    OLD_RECORD_WORDS - 1,
    OLD_RECORD_WORDS,
    OLD_RECORD_WORDS + 1,
    2 * OLD_RECORD_WORDS,
    2 * OLD_RECORD_WORDS + 1,
    RECORD_WORDS - 1,
    RECORD_WORDS,
    RECORD_WORDS + 1,
    2 * RECORD_WORDS - 1,
    2 * RECORD_WORDS,
    2 * RECORD_WORDS + 1,
    LONGEST_MEMORY - RECORD_WORDS,
    LONGEST_MEMORY - 1,
    LONGEST_MEMORY,
];

/// A region's first address, and the address behind its last.
#[derive(Clone, Copy, Debug)]
struct Region {
    first: usize,
    end: usize,
}

/// Regions of each length, at the lowest address, at the highest and between.
fn regions() -> Vec<Region> {
    let firsts = |length| [0, (LONGEST_MEMORY - length) / 3, LONGEST_MEMORY - length];
    let of_length = |length| firsts(length).map(|first| Region { first, end: first + length });
    LENGTHS.into_iter().flat_map(of_length).collect()
}

impl Region {
    fn words(self, memory: &[u16]) -> &[u16] {
        &memory[self.first..self.end]
    }

    /// The region's file in records of so many words.
    fn file(self, memory: &[u16], cut: usize) -> Vec<u8> {
        file_of_region(BOARD, self.first as u16, self.words(memory), cut)
    }
}

/// A whole memory with another word at each address.
fn whole_memory() -> Vec<u16> {
    (0..=u16::MAX).rev().collect()
}

/// What a load answers and leaves.
type Loaded = (Result<usize, Refusal>, Vec<u16>);

fn load_with<K: Kit>(board: u16, length: usize, file: &[u8]) -> Loaded {
    let mut memory = vec![FILL; length];
    (K::load(board, &mut memory, file), memory)
}

/// What both kits do with a file and a memory of this length.
fn load(board: u16, length: usize, file: &[u8]) -> Loaded {
    let loaded = load_with::<Proved>(board, length, file);
    assert!(loaded == load_with::<Handwritten>(board, length, file), "{} bytes into {length} words", file.len());
    loaded
}

/// Whether a region's file is to be loaded, however it is cut.
fn admission(board: u16, length: usize, region: Region) -> Result<(), Refusal> {
    if length > LONGEST_MEMORY {
        Err(Refusal::MemoryTooLong)
    } else if board != BOARD {
        Err(Refusal::WrongBoard)
    } else if region.end > length {
        Err(Refusal::PastMemory)
    } else {
        Ok(())
    }
}

/// "The old and the new writing of one board and region, loaded alike into equal memory, give equal memory or the same refusal": just the
/// region is put back, or nothing is altered. Only the number of records differs.
#[test]
fn old_and_new_files_leave_equal_memory() {
    let from = whole_memory();
    for region in regions() {
        let words = region.words(&from);
        let files = [OLD_RECORD_WORDS, RECORD_WORDS].map(|cut| (region.file(&from, cut), words.len().div_ceil(cut)));
        for length in [0, region.first, region.end - 1, region.end, LONGEST_MEMORY, LONGEST_MEMORY + 1] {
            for board in [BOARD, BOARD + 1] {
                let admission = admission(board, length, region);
                let mut left = vec![FILL; length];
                if admission.is_ok() {
                    left[region.first..region.end].copy_from_slice(words);
                }
                for (file, records) in &files {
                    let (answer, memory) = load(board, length, file);
                    assert_eq!(answer, admission.map(|()| *records), "{region:?} into {length} words");
                    assert!(memory == left, "{region:?} in {records} records into {length} words");
                }
            }
        }
    }
}

fn check_write<K: Kit>(memory: &[u16], region: Region, file: &[u8]) {
    let (first, last) = (region.first as u16, (region.end - 1) as u16);
    let mut room = vec![0xA5; file.len() + 1];
    let short = K::write(BOARD, memory, first, last, &mut room[..file.len() - 1]);
    assert_eq!(short, Err(Refusal::RoomTooSmall), "{region:?} with the {} kit", K::NAME);
    assert!(room.iter().all(|byte| *byte == 0xA5), "{region:?} with the {} kit", K::NAME);
    assert_eq!(K::write(BOARD, memory, first, last, &mut room), Ok(file.len()), "{region:?} with the {} kit", K::NAME);
    assert!(room.split_last() == Some((&0xA5, file)), "{region:?} with the {} kit", K::NAME);
}

/// "The writer now cuts at 4,096."
#[test]
fn both_kits_write_full_records() {
    let memory = whole_memory();
    for region in regions() {
        let file = region.file(&memory, RECORD_WORDS);
        assert_eq!(file.len(), length_of(region.words(&memory).len(), RECORD_WORDS));
        check_write::<Proved>(&memory, region, &file);
        check_write::<Handwritten>(&memory, region, &file);
    }
}

/// A file of one record of so many words at the address 1.
fn file_of_record(words: &[u16]) -> Vec<u8> {
    let mut file = ImageFile::new(BOARD);
    file.record(1, words);
    file.finish()
}

/// Words that are cut are met before the memory's end is.
#[test]
fn each_count_up_to_the_limit_is_loaded() {
    let from = whole_memory();
    for count in 1..=RECORD_WORDS {
        let words = &from[..count];
        let file = file_of_record(words);
        let (answer, memory) = load(BOARD, count + 1, &file);
        assert_eq!(answer, Ok(1), "a count of {count}");
        assert!(memory[0] == FILL && memory[1..] == *words, "a count of {count}");
        assert_eq!(load(BOARD, count, &file).0, Err(Refusal::PastMemory), "a count of {count}");
        let cut = &file[..file.len() - 5];
        assert_eq!(load(BOARD, count, cut).0, Err(Refusal::MalformedImage), "a count of {count} with a byte less");
    }
}

/// "9 now begins at 4,097", and comes before the memory's end.
#[test]
fn other_counts_are_refused() {
    let from = whole_memory();
    for count in [0, RECORD_WORDS + 1, RECORD_WORDS + 2, 2 * RECORD_WORDS, LONGEST_MEMORY - 1] {
        let file = file_of_record(&from[..count]);
        for length in [0, count, count + 1] {
            assert_eq!(load(BOARD, length, &file).0, Err(Refusal::MalformedImage), "a count of {count}");
        }
    }
}
