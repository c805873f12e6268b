/* The CP1610 board kit's C interface: link with libcp1610.a. docs/C-INTERFACE.md is its page.
 *
 * Every function is total as long as each pointer is valid for its length, in items (a length of 0 may have any pointer), and
 * no buffer that is written overlaps another. A buffer longer than said is taken, but for those of a set; the items past what is named
 * stay. */
#ifndef CP1610_H
#define CP1610_H

#include <stddef.h>
#include <stdint.h>

/* The number of this interface, raised by each request that changes or adds a call. */
#define CP1610_INTERFACE 6

#ifdef __cplusplus
extern "C" {
#endif

/* The words of a state. In the words from CP1610_S on, anything but 0 counts as 1; they come back as 0 or 1. */
enum cp1610_state {
    CP1610_R0 = 0, /* R0 to R7 are words 0 to 7 */
    CP1610_R7 = 7,
    CP1610_S = 8,
    CP1610_Z = 9,
    CP1610_O = 10,
    CP1610_C = 11,
    CP1610_I = 12,
    CP1610_D = 13,
    CP1610_HALTED = 14,
    CP1610_READY = 15,
    CP1610_LEVEL = 16, /* the previous INTRM level, 1 is high */
    CP1610_PENDING = 17,
    CP1610_STATE_WORDS = 18
};

/* A board's map says which words are there and which can be stored to. It has CP1610_RANGE_WORDS words for each range: its first
 * address, its last, which belongs to it, and its kind. The first range that has an address decides. A word of ROM keeps what it holds,
 * one of 16-bit RAM takes the word stored, one of 8-bit RAM takes its low byte (and gets the high byte 0); all three are read as they
 * stand in memory. An address that no range has is empty: it reads as $FFFF, and a store there does nothing. What lies past the memory
 * does so too, in any range. A map of length 0 has no range, so that every word is empty.
 *
 * `map_length` counts words. One that is no multiple of 3, or a kind above 2 in one of the first 16 ranges, is no map at all and is
 * refused by 255, with the short buffers and before all else. More than 16 ranges, or one whose first address is above its last, are
 * refused by 14, directly after 1. */
enum cp1610_range_kind { CP1610_ROM = 0, CP1610_RAM16 = 1, CP1610_RAM8 = 2 };
enum cp1610_map { CP1610_RANGE_WORDS = 3, CP1610_MOST_RANGES = 16, CP1610_ALL_RAM_WORDS = 3 };

/* The map of one range, 16-bit RAM at every address: the memory as it is lent. */
static const uint16_t CP1610_ALL_RAM[CP1610_ALL_RAM_WORDS] = {0x0000, 0xFFFF, CP1610_RAM16};

/* The lines of a step or a run. External branch input n is bit 16 + n. */
enum cp1610_lines { CP1610_INTRM_HIGH = 1, CP1610_BUSRQ_HIGH = 2 };

/* The kinds of a success: of a step, and of a wait. Every other call has CP1610_DONE only. */
enum cp1610_kind { CP1610_DONE = 1, CP1610_GRANTED = 3, CP1610_INTERRUPTED = 4, CP1610_EXECUTED = 5 };
enum cp1610_wait_kind { CP1610_WAITS = 1, CP1610_OVER = 2, CP1610_MEETS_HALT = 3, CP1610_MEETS_UNSPECIFIED = 4 };

/* The refusals: document 01's numbers with those that document 02 adds, and 255, which is this interface's own and none of theirs: a
 * `state`, `out` or `words` that is shorter than the call needs, or a `map` that is none, tested before all else. `text`, `room`, `bin`,
 * `cfg`, `entries`, `clear` and `set` never give it. A refused call alters nothing. */
enum cp1610_refusal {
    CP1610_MEMORY_TOO_LONG = 1,
    CP1610_IS_HALTED = 2,
    CP1610_UNSPECIFIED = 3,
    CP1610_BUDGET_TOO_HIGH = 4,
    CP1610_TEXT_ROOM_TOO_SMALL = 5,
    CP1610_NOT_A_LISTING_LINE = 6,
    CP1610_FIRST_ABOVE_LAST = 7,
    CP1610_LIMIT_TOO_HIGH = 8,
    CP1610_MALFORMED_IMAGE = 9, /* a missing or wrong mark, a cut file, a count of 0 or above 4,096, bytes after the sum */
    CP1610_WRONG_BOARD = 10,
    CP1610_PAST_MEMORY = 11, /* a record, a mapping line's target or a written region */
    CP1610_SUM_DIFFERS = 12,
    CP1610_ROOM_TOO_SMALL = 13, /* for an image, or either room of a written pair */
    CP1610_BAD_MAP = 14,
    CP1610_MALFORMED_MAPPING = 15,
    CP1610_MISSING_FILE_WORDS = 16,
    CP1610_TOO_MANY_ENTRIES = 17,
    CP1610_WRONG_SET_LENGTH = 18,
    CP1610_SHORT_BUFFER = 255,
    CP1610_NO_MAP = CP1610_SHORT_BUFFER
};

/* What a run reports, and the causes that end one. */
enum cp1610_report { CP1610_STEPS = 0, CP1610_CYCLES = 1, CP1610_CAUSE = 2, CP1610_RUN_WORDS = 3 };
enum cp1610_cause { CP1610_BY_HALT = 0, CP1610_BY_UNSPECIFIED = 1, CP1610_BY_BUDGET = 2 };

/* What a region reports. Where there is none, the numbers are 0. */
enum cp1610_region_report {
    CP1610_HAS_WAIT = 0,
    CP1610_LONGEST = 1,
    CP1610_LONGEST_START = 2,
    CP1610_HAS_OVER = 3,
    CP1610_OVER_START = 4,
    CP1610_REGION_WORDS = 5
};

/* What a listing reports, and the most words of a line. */
enum cp1610_list_report { CP1610_TEXT_LENGTH = 0, CP1610_WORDS_USED = 1, CP1610_NEXT_D = 2, CP1610_LIST_WORDS = 3 };
enum cp1610_line { CP1610_LINE_WORDS = 3, CP1610_TEXT_ROOM = 16 };

/* The most words of a record in an image file: the writer makes full records, the last perhaps shorter. CP1610_IMAGE_ROOM bytes take every file
 * that is written; a file that is loaded may be longer. */
enum cp1610_image { CP1610_RECORD_WORDS = 4096, CP1610_IMAGE_ROOM = 131176 };

/* What the writing of a pair reports, both in bytes, and the room that its text needs, which is its length too, whatever the region. */
enum cp1610_pair_report { CP1610_BIN_LENGTH = 0, CP1610_CFG_LENGTH = 1, CP1610_PAIR_WORDS = 2 };
enum cp1610_pair { CP1610_CFG_ROOM = 32 };

/* A set of reached addresses is two buffers: the addresses that are reached with D clear, and those that are reached with D set. Address a is
 * bit a modulo 64 of word a / 64. Each buffer has just CP1610_SET_WORDS words; a shorter and a longer one are refused by 18. */
enum cp1610_set { CP1610_SET_WORDS = 1024, CP1610_MOST_ENTRIES = 16 };

/* Whether a buffer of a set has an address. */
static inline int cp1610_has(const uint64_t *buffer, uint16_t address) { return (int)(buffer[address / 64] >> address % 64 & 1); }

/* What the building of a set reports. Where no path ends by a row that writes R7, the numbers of those are 0. */
enum cp1610_reach_report {
    CP1610_ADDRESSES = 0,
    CP1610_R7_WRITERS = 1,
    CP1610_HAS_R7_WRITER = 2,
    CP1610_LOWEST_R7_WRITER = 3,
    CP1610_REACH_WORDS = 4
};

/* An answer is a refusal below 2^32; else the high half is the kind and the low half the value. */
static inline int cp1610_is_refused(uint64_t answer) { return answer >> 32 == 0; }
static inline uint32_t cp1610_kind_of(uint64_t answer) { return (uint32_t)(answer >> 32); }
static inline uint32_t cp1610_value_of(uint64_t answer) { return (uint32_t)answer; }

/* The reset state, over the first 18 words. Kind 1. Refused by 255 only. */
uint64_t cp1610_reset(uint16_t *state, size_t state_length);

/* One step. Kind 3 the bus was granted, 4 an interrupt was entered, 5 an instruction was executed; the value is the cycles.
 * Refused by 1 for a memory above 65,536 words, else by 14 for a bad map, else by 2 for a halted machine, else by 3 for an
 * unspecified form. */
uint64_t cp1610_step(uint16_t *state, size_t state_length, uint16_t *mem, size_t mem_length, const uint16_t *map, size_t map_length,
    uint32_t lines);

/* Steps with fixed lines, while their cycles are below the budget, the machine is not halted and the next step is not refused by
 * 3. Kind 1; `out` gets the steps, the cycles and the cause of the end: halted, else unspecified, else the budget.
 * Refused by 1 for a memory above 65,536 words, else by 14 for a bad map, else by 4 for a budget above 1,000,000, else by 2 for a
 * halted machine. */
uint64_t cp1610_run(uint16_t *state, size_t state_length, uint16_t *mem, size_t mem_length, const uint16_t *map, size_t map_length,
    uint32_t lines, uint32_t budget, uint32_t *out, size_t out_length);

/* The wait meter for an address. A limit of 0 means 48 cycles. Kind 1 a request is heard after so many cycles, which is the value; 2 they
 * are more than the limit; 3 the walk meets HLT; 4 it meets an unspecified form, whose address is the value.
 * Refused by 1 for a memory above 65,536 words, else by 14 for a bad map, else by 8 for a limit above 4,096. */
uint64_t cp1610_wait(const uint16_t *mem, size_t mem_length, const uint16_t *map, size_t map_length, uint16_t address, uint16_t limit);

/* The wait meter for every address from first to last. A limit of 0 means 48 cycles. Kind 1; `out` gets whether any has a wait, the longest
 * and the lowest start that has it, whether any is over the limit, and the lowest such start.
 * Refused by 1 for a memory above 65,536 words, else by 14 for a bad map, else by 7 for a first above last, else by 8 for a limit
 * above 4,096. */
uint64_t cp1610_region(const uint16_t *mem, size_t mem_length, const uint16_t *map, size_t map_length, uint16_t first, uint16_t last,
    uint16_t limit, uint32_t *out, size_t out_length);

/* The line of the instruction at an address, with D as it stands there (anything but 0 is set). Kind 1; `out` gets the text's length,
 * at most 14, the words used and the next D. The text has no end mark, and the room past it stays.
 * Refused by 1 for a memory above 65,536 words, else by 14 for a bad map, else by 5 for a text room under 16 bytes. */
uint64_t cp1610_list(const uint16_t *mem, size_t mem_length, const uint16_t *map, size_t map_length, uint16_t address, uint8_t d,
    uint8_t *text, size_t text_length, uint32_t *out, size_t out_length);

/* The words of a line, with D as it stands before it (anything but 0 is set). Kind 1; the value is the count of words, and those past
 * it stay.
 * Refused by 6 for a line that is not one of the lister's. */
uint64_t cp1610_assemble(const uint8_t *line, size_t line_length, uint8_t d, uint16_t *words, size_t words_length);

/* Loads an image file for the board of this number. Its records have 1 to 4,096 words each. No map is asked: words of ROM are loaded too.
 * The answer is 2^32 + the number of records, which come below 2^32 in a file below 32 GiB.
 * Refused by 1 for a memory above 65,536 words, else by the file's first offence: 9 malformed, as by a count of 0 or above 4,096, 10 another
 * board's, 11 a record past the memory, 12 the sum differs. */
uint64_t cp1610_load(uint16_t board, uint16_t *mem, size_t mem_length, const uint8_t *file, size_t file_length);

/* Writes the words from first to last as an image file for a board, in records of 4,096 words, the last perhaps shorter. The answer is 2^32 +
 * the file's length, which is 8 bytes, 2 for each word and 6 for each record, at most CP1610_IMAGE_ROOM; the room past it stays.
 * Refused by 1 for a memory above 65,536 words, else by 7 for a first above last, else by 11 for a region past the memory, else by
 * 13 for a room that is too small. */
uint64_t cp1610_write(uint16_t board, const uint16_t *mem, size_t mem_length, uint16_t first, uint16_t last, uint8_t *room,
    size_t room_length);

/* Loads a pair: a flat file of words, high byte first, and the mapping text that says where they go. The text is the line `[mapping]`,
 * then empty lines and lines of just the form `$0000 - $0FFF = $5000`: the first file word, the last, and the address that the first goes to,
 * four upper-case digits each. Each line ends in a line feed, the last too. Later lines win, words that no line names are left, and no map
 * is asked: words of ROM are loaded too. The answer is 2^32 + the number of mapping lines, which come below 2^32 in a text below 88 GiB.
 * Refused by 1 for a memory above 65,536 words, else by 15 for a text that is not of this form or has a line with its first word above its
 * last, else by 16 for a line that names words that the file has not, or an odd number of bytes, else by 11 for a line that goes past the
 * memory; each over all lines. */
uint64_t cp1610_load_pair(uint16_t *mem, size_t mem_length, const uint8_t *bin, size_t bin_length, const uint8_t *cfg, size_t cfg_length);

/* Writes the words from first to last as a pair: the flat file into `bin`, and into `cfg` a mapping text of one line that puts them back.
 * Kind 1; `out` gets the bytes of the file, two a word, and of the text, always 32. The rooms past them stay.
 * Refused by 1 for a memory above 65,536 words, else by 7 for a first above last, else by 11 for a region past the memory, else by
 * 13 for a room that is too small, of which the other one stays too. */
uint64_t cp1610_write_pair(const uint16_t *mem, size_t mem_length, uint16_t first, uint16_t last, uint8_t *bin, size_t bin_length,
    uint8_t *cfg, size_t cfg_length, uint32_t *out, size_t out_length);

/* Builds the set of reached addresses: those that a path from an entry leads to, each with the D that it is reached with, over memory as
 * it is. The entries are reached with D clear; nothing else is an entry by itself, $1004 neither. A path goes on at the next instruction;
 * behind a branch both ways, but B only to its target and NOPP only onward; behind a jump at its target, and at the return address if it
 * leaves one. HLT, an unspecified form and any other row that writes its result to R7 are reached and end a path. Kind 1; `clear` and `set`
 * get the addresses, whatever they held; `out` gets how many there are, each counted once, at how many of them a row writes R7 and ends a
 * path, whether at any, and the lowest of those. The call takes some 140 KiB of the calling thread's stack.
 * Refused by 1 for a memory above 65,536 words, else by 14 for a bad map, else by 17 for more than 16 entries, equal ones counted, else by
 * 18 for a `clear` or `set` that has not just 1,024 words. */
uint64_t cp1610_reach(const uint16_t *mem, size_t mem_length, const uint16_t *map, size_t map_length, const uint16_t *entries,
    size_t entries_length, uint64_t *clear, size_t clear_length, uint64_t *set, size_t set_length, uint32_t *out, size_t out_length);

/* The wait meter for every address from first to last that `clear` has: the reached ones, where the set was built, but any words are
 * taken. Of `set` only the length is looked at; it may be the same buffer. A limit of 0 means 48 cycles. Kind 1; `out` gets what
 * cp1610_region puts there, of these starts alone.
 * Refused by 1 for a memory above 65,536 words, else by 14 for a bad map, else by 7 for a first above last, else by 8 for a limit
 * above 4,096, else by 18 for a `clear` or `set` that has not just 1,024 words. */
uint64_t cp1610_region_reached(const uint16_t *mem, size_t mem_length, const uint16_t *map, size_t map_length, uint16_t first,
    uint16_t last, uint16_t limit, const uint64_t *clear, size_t clear_length, const uint64_t *set, size_t set_length, uint32_t *out,
    size_t out_length);

#ifdef __cplusplus
}
#endif

#endif
