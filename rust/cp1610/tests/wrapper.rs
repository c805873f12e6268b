//! What the wrapper adds to the C interface.

use cp1610::calls::{self, NO_MAP, SHORT_BUFFER};
use cp1610::{
    Board, CFG_ROOM, Cause, DEFAULT_LIMIT, Event, IMAGE_ROOM, Kind, LONGEST_MEMORY, Lines, Longest, MOST_ENTRIES,
    Machine, Mark, PairLengths, RECORD_WORDS, Range, Reached, ReachedSet, Refusal, Region, Register, SET_WORDS,
    STATE_WORDS, Wait,
};

#[test]
fn a_machine_shows_and_takes_registers_and_marks() {
    let mut machine = Machine::reset();
    assert_eq!((machine.register(Register::R7), machine.is_set(Mark::Level)), (0x1000, true));
    machine.set_register(Register::R7, 0x0200);
    machine.set(Mark::Level, false);
    machine.set(Mark::Ready, true);
    let mut words = [0; STATE_WORDS];
    words[7] = 0x0200;
    words[Mark::Ready as usize] = 1;
    assert_eq!(machine.to_words(), words);
    // Anything but 0 is set.
    words[Mark::Ready as usize] = 7;
    assert_eq!(machine, Machine::from_words(&words));
}

#[test]
fn lines_are_passed_on() {
    let mut memory = [0x210, 5, 0x034]; // BEXT 0,+$0005
    let at_0 = Machine::from_words(&[0; STATE_WORDS]);
    for (external, next) in [(0, 2), (1, 7)] {
        let mut machine = at_0.clone();
        let lines = Lines { external, ..Lines::QUIET };
        machine.step(&mut memory, &Board::all_ram(), lines).expect("BEXT is executed");
        assert_eq!(machine.register(Register::R7), next);
    }
    let mut ready = at_0.clone();
    ready.set(Mark::Ready, true);
    let granted = ready.step(&mut memory, &Board::all_ram(), Lines { busrq: false, ..Lines::QUIET });
    assert_eq!(granted.map(|step| step.event), Ok(Event::Granted));
}

#[test]
fn a_refusal_is_an_error_with_its_number() {
    let mut memory = [0x000];
    let mut machine = Machine::from_words(&[0; STATE_WORDS]);
    let board = Board::all_ram();
    assert_eq!(machine.run(&mut memory, &board, Lines::QUIET, 100).map(|run| run.cause), Ok(Cause::Halted));
    let refused = machine.step(&mut memory, &board, Lines::QUIET).expect_err("the machine is halted");
    assert_eq!((refused, refused.number()), (Refusal::Halted, 2));
    assert_eq!(refused.to_string(), "refused by 2: the machine is halted");
}

/// MVO R0,$0005 at 0, under each kind of word at 5 and with none there.
#[test]
fn a_board_says_what_a_store_leaves() {
    let code = Range::rom(0, 4);
    let at_5 = |kind| Range { first: 5, last: 5, kind };
    for (ranges, left) in [
        (vec![code, at_5(Kind::Rom)], 0xABCD),
        (vec![code, at_5(Kind::Ram16)], 0x1234),
        (vec![code, at_5(Kind::Ram8)], 0x0034),
        (vec![code, at_5(Kind::Ram8), at_5(Kind::Ram16)], 0x0034),
        (vec![code], 0xABCD),
    ] {
        let mut memory = [0x240, 0x0005, 0, 0, 0, 0xABCD];
        let mut machine = Machine::from_words(&[0; STATE_WORDS]);
        machine.set_register(Register::R0, 0x1234);
        machine.step(&mut memory, &Board::new(&ranges), Lines::QUIET).expect("MVO is executed");
        assert_eq!(memory[5], left, "{ranges:?}");
    }
}

/// Board and map are two forms of the same ranges.
#[test]
fn a_board_has_the_ranges_that_it_was_made_from() {
    let ranges = [Range::rom(0x5000, 0x6FFF), Range::ram16(0, 0), Range::ram8(3, 2)];
    let board: Board = ranges.into_iter().collect();
    assert_eq!(board, Board::new(&ranges));
    assert!(board.ranges().eq(ranges));
    assert_eq!(board.map(), [0x5000, 0x6FFF, 0, 0, 0, 1, 3, 2, 2]);
    assert_eq!(Board::all_ram().map(), [0, 0xFFFF, 1]);
    assert_eq!(Board::new(&[]).map(), []);
}

/// Also where the bad range never decides.
#[test]
fn a_bad_board_is_refused_where_it_is_lent() {
    let (mut memory, mut text, mut set) = ([0], [0; 16], ReachedSet::new());
    for ranges in [vec![Range::ALL_RAM; 17], vec![Range::ALL_RAM, Range::rom(1, 0)]] {
        let board = Board::new(&ranges);
        let mut machine = Machine::reset();
        assert_eq!(machine.step(&mut memory, &board, Lines::QUIET), Err(Refusal::BadMap));
        assert_eq!(machine.run(&mut memory, &board, Lines::QUIET, 1), Err(Refusal::BadMap));
        assert_eq!(cp1610::wait(&memory, &board, 0, 0), Err(Refusal::BadMap));
        assert_eq!(cp1610::region(&memory, &board, 0, 0, 0), Err(Refusal::BadMap));
        assert_eq!(cp1610::list(&memory, &board, 0, false, &mut text), Err(Refusal::BadMap));
        assert_eq!(cp1610::reach(&memory, &board, &[0], &mut set), Err(Refusal::BadMap));
        assert_eq!(cp1610::region_reached(&memory, &board, 0, 0, 0, &set), Err(Refusal::BadMap));
    }
    let most = Board::new(&[Range::ALL_RAM; cp1610::MOST_RANGES]);
    assert!(cp1610::wait(&memory, &most, 0, 0).is_ok());
}

/// Three MVO@, six CLRC and NOP: 57 cycles from the first, 48 from the second.
#[test]
fn a_limit_of_0_is_the_default_limit() {
    let memory = [0x248, 0x248, 0x248, 0x006, 0x006, 0x006, 0x006, 0x006, 0x006, 0x034];
    let (board, set) = (Board::all_ram(), ReachedSet::from_words(&[!0; SET_WORDS], &[!0; SET_WORDS]));
    let found = Region { longest: Some(Longest { cycles: DEFAULT_LIMIT, start: 1 }), over: Some(0) };
    for limit in [0, DEFAULT_LIMIT] {
        assert_eq!(cp1610::wait(&memory, &board, 1, limit), Ok(Wait::Wait { cycles: DEFAULT_LIMIT }));
        assert_eq!(cp1610::wait(&memory, &board, 0, limit), Ok(Wait::Over));
        assert_eq!(cp1610::region(&memory, &board, 0, 9, limit), Ok(found));
        assert_eq!(cp1610::region_reached(&memory, &board, 0, 9, limit, &set), Ok(found));
    }
}

/// The file for board 2 of a record at 0, of so many words of 0.
fn file_of(words: u16) -> Vec<u8> {
    let [high, low] = words.to_be_bytes();
    let mut file = [&b"ID\x00\x02AT\x00\x00"[..], &[high, low]].concat();
    file.resize(file.len() + 2 * usize::from(words), 0);
    file.extend_from_slice(b"OK");
    file.extend_from_slice(&(words + 2).to_be_bytes());
    file
}

/// As many words as a record may have are one, one word more makes two, and a whole memory just fills the longest room.
#[test]
fn an_image_has_full_records() {
    let (memory, mut room) = (vec![0x1610; LONGEST_MEMORY], vec![9; IMAGE_ROOM]);
    let full = RECORD_WORDS as u16;
    for (last, length, records) in [(full - 1, 8_206, 1), (full, 8_214, 2), (u16::MAX, IMAGE_ROOM, 16)] {
        let mut back = vec![0; LONGEST_MEMORY];
        assert_eq!(cp1610::write(2, &memory, 0, last, &mut room[..length - 1]), Err(Refusal::RoomTooSmall));
        assert_eq!(cp1610::write(2, &memory, 0, last, &mut room), Ok(length));
        assert_eq!(cp1610::load(2, &mut back, &room[..length]), Ok(records));
        assert_eq!(back.iter().filter(|word| **word == 0x1610).count(), usize::from(last) + 1);
    }
}

#[test]
fn a_record_above_the_limit_is_refused() {
    let mut memory = vec![9; LONGEST_MEMORY];
    let full = RECORD_WORDS as u16;
    for words in [0, full + 1] {
        assert_eq!(cp1610::load(2, &mut memory, &file_of(words)), Err(Refusal::MalformedImage));
    }
    assert!(memory.iter().all(|word| *word == 9));
    for words in [1, full] {
        assert_eq!(cp1610::load(2, &mut memory, &file_of(words)), Ok(1));
    }
    assert_eq!((memory[RECORD_WORDS - 1], memory[RECORD_WORDS]), (0, 9));
}

/// Later lines win, and words that no line names are left.
#[test]
fn a_pair_is_loaded_line_by_line() {
    let bin = [0x00, 0x01, 0x00, 0x02, 0x00, 0x03, 0x00, 0x04];
    let mut memory = [9; 5];
    let cfg = b"[mapping]\n$0000 - $0001 = $0001\n\n$0001 - $0002 = $0002\n";
    assert_eq!(cp1610::load_pair(&mut memory, &bin, cfg), Ok(2));
    assert_eq!(memory, [9, 1, 2, 3, 9]);
    assert_eq!(cp1610::load_pair(&mut memory, &[], b"[mapping]\n"), Ok(0));
    for (cfg, refusal) in [
        (&b"$0000 - $0000 = $0000\n"[..], Refusal::MalformedMapping),
        (b"[mapping]\n$0004 - $0004 = $0000\n", Refusal::MissingFileWords),
        (b"[mapping]\n$0000 - $0001 = $0004\n", Refusal::PastMemory),
    ] {
        assert_eq!(cp1610::load_pair(&mut memory, &bin, cfg), Err(refusal));
    }
    assert_eq!(memory, [9, 1, 2, 3, 9]);
}

/// Both lengths are answered, and both rooms stay past them; where either is short, neither is touched.
#[test]
fn a_pair_is_written_into_two_rooms() {
    let memory = [0x1234, 0x5678, 0x9ABC];
    let (mut bin, mut cfg) = ([9; 5], [9; CFG_ROOM + 1]);
    for (bin_room, cfg_room) in [(3, CFG_ROOM), (4, CFG_ROOM - 1)] {
        let refused = cp1610::write_pair(&memory, 1, 2, &mut bin[..bin_room], &mut cfg[..cfg_room]);
        assert_eq!(refused, Err(Refusal::RoomTooSmall));
    }
    assert_eq!((bin, cfg), ([9; 5], [9; CFG_ROOM + 1]));
    let lengths = PairLengths { bin: 4, cfg: CFG_ROOM };
    assert_eq!(cp1610::write_pair(&memory, 1, 2, &mut bin, &mut cfg), Ok(lengths));
    assert_eq!(bin, [0x56, 0x78, 0x9A, 0xBC, 9]);
    assert_eq!(&cfg, b"[mapping]\n$0000 - $0001 = $0001\n\x09");
}

/// A set shows its addresses by D, and is lent to the meter of its members.
#[test]
fn a_set_has_the_addresses_of_either_d() {
    let memory = [0x001, 0x2B8, 0x048, 0x04C, 0x220, 0x0004]; // SDBD; MVII #$4C48,R0; B -$0004, to $0001
    let (board, mut set) = (Board::all_ram(), ReachedSet::from_words(&[!0; SET_WORDS], &[!0; SET_WORDS]));
    let reached = cp1610::reach(&memory, &board, &[0], &mut set);
    assert_eq!(reached, Ok(Reached { addresses: 4, r7_writers: 0, lowest_r7_writer: None }));
    assert!(set.addresses(false).eq([0, 1, 3, 4]) && set.addresses(true).eq([1]));
    assert!(set.contains(1, false) && set.contains(1, true) && !set.contains(0, true) && !set.contains(2, false));
    assert_eq!((set.words(false)[0], set.words(true)[0]), (0b11011, 0b00010));
    let longest = |cycles, start| Ok(Region { longest: Some(Longest { cycles, start }), over: None });
    assert_eq!(cp1610::region(&memory, &board, 0, 5, 0), longest(23, 2)); // MVII's first operand word reads as SLL R0
    assert_eq!(cp1610::region_reached(&memory, &board, 0, 5, 0, &set), longest(17, 3));
    assert_eq!(cp1610::region_reached(&memory, &board, 5, 5, 0, &set), Ok(Region { longest: None, over: None }));
}

/// Also where entries are equal; a refused call leaves the set.
#[test]
fn entries_and_sets_are_refused_where_they_are_lent() {
    let (memory, board) = ([0x000], Board::all_ram());
    let mut set = ReachedSet::from_words(&[!0; SET_WORDS], &[7; SET_WORDS]);
    let lent = set.clone();
    assert_eq!(cp1610::reach(&memory, &board, &[0; MOST_ENTRIES + 1], &mut set), Err(Refusal::TooManyEntries));
    assert_eq!(set, lent);
    assert!(cp1610::reach(&memory, &board, &[0; MOST_ENTRIES], &mut set).is_ok());
    for (clear, with_d) in [(SET_WORDS - 1, SET_WORDS), (SET_WORDS, SET_WORDS + 1), (0, 0)] {
        let mut set = ReachedSet::from_words(&vec![7; clear], &vec![7; with_d]);
        let lent = set.clone();
        assert_eq!(cp1610::reach(&memory, &board, &[], &mut set), Err(Refusal::WrongSetLength));
        assert_eq!(cp1610::region_reached(&memory, &board, 0, 0, 0, &set), Err(Refusal::WrongSetLength));
        assert_eq!(set, lent);
    }
}

/// A set of words past the last address is no set, and shows nothing of them; so does one that lacks words.
#[test]
fn a_set_of_other_words_can_be_looked_at() {
    let long = ReachedSet::from_words(&[1 << 63; SET_WORDS + 1], &[]);
    assert_eq!((long.addresses(false).count(), long.addresses(false).last()), (SET_WORDS, Some(0xFFFF)));
    assert!(long.contains(0xFFFF, false) && !long.contains(0, true) && long.addresses(true).eq([]));
    assert_eq!(ReachedSet::default().addresses(false).count(), 0);
}

const ALL_RAM: &[u16] = &[0, 0xFFFF, 1];

/// Short buffers are refused before all else, here before a memory that is too long.
#[test]
fn short_buffers_are_refused_by_255() {
    let mut long = vec![0; 65_537];
    let (mut state, mut out) = ([9; STATE_WORDS], [9; 5]);
    assert_eq!(calls::reset(&mut state[..17]), SHORT_BUFFER);
    assert_eq!(calls::step(&mut state[..17], &mut long, ALL_RAM, 3), SHORT_BUFFER);
    assert_eq!(calls::run(&mut state[..17], &mut long, ALL_RAM, 3, 0, &mut out), SHORT_BUFFER);
    assert_eq!(calls::run(&mut state, &mut long, ALL_RAM, 3, 0, &mut out[..2]), SHORT_BUFFER);
    assert_eq!(calls::region(&long, ALL_RAM, 1, 0, 0, &mut out[..4]), SHORT_BUFFER);
    assert_eq!(calls::list(&long, ALL_RAM, 0, 0, &mut [], &mut out[..2]), SHORT_BUFFER);
    assert_eq!(calls::assemble(b"no line", 0, &mut state[..2]), SHORT_BUFFER);
    assert_eq!(calls::write_pair(&long, 1, 0, &mut [], &mut [], &mut out[..1]), SHORT_BUFFER);
    assert_eq!(calls::reach(&long, ALL_RAM, &[0; 17], &mut [], &mut [], &mut out[..3]), SHORT_BUFFER);
    assert_eq!(calls::region_reached(&long, ALL_RAM, 1, 0, 0, &[], &[], &mut out[..4]), SHORT_BUFFER);
    assert_eq!((state, out), ([9; STATE_WORDS], [9; 5]));
}

/// So is a map that is none; a kind above 2 past the 16th range is not looked at, and the map is one of 17 ranges.
#[test]
fn no_map_is_refused_by_255() {
    let mut long = vec![0; 65_537];
    let (mut state, mut out) = ([9; STATE_WORDS], [9; 5]);
    for map in [&[0][..], &[0, 0xFFFF], &[0, 0xFFFF, 1, 0], &[0, 0xFFFF, 3], &[0, 0xFFFF, 1, 0, 0, 0xFFFF]] {
        assert_eq!(calls::step(&mut state, &mut long, map, 3), NO_MAP);
        assert_eq!(calls::run(&mut state, &mut long, map, 3, 0, &mut out), NO_MAP);
        assert_eq!(calls::wait(&long, map, 0, 0xFFFF), NO_MAP);
        assert_eq!(calls::region(&long, map, 1, 0, 0, &mut out), NO_MAP);
        assert_eq!(calls::list(&long, map, 0, 0, &mut [], &mut out), NO_MAP);
        assert_eq!(calls::reach(&long, map, &[0; 17], &mut [], &mut [], &mut out), NO_MAP);
        assert_eq!(calls::region_reached(&long, map, 1, 0, 0, &[], &[], &mut out), NO_MAP);
    }
    let mut map = ALL_RAM.repeat(17);
    map[16 * 3 + 2] = 3;
    assert_eq!(calls::wait(&long, &map, 0, 0), Refusal::MemoryTooLong.number().into());
    assert_eq!(calls::wait(&[], &map, 0, 0), Refusal::BadMap.number().into());
    map[15 * 3 + 2] = 3;
    assert_eq!(calls::wait(&[], &map, 0, 0), NO_MAP);
    assert_eq!((state, out), ([9; STATE_WORDS], [9; 5]));
}
