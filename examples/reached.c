/* Loads an image file, asks the meter about a region with every address as a start, builds the set of reached addresses, and asks again
 * with those alone: without the operands and tables of the first answer. A second program to copy from.
 *
 *     (cd crates/cp1610 && rt lib)
 *     cc -O2 -Iinclude examples/reached.c crates/cp1610/out/libcp1610.a -o target/reached
 *     target/reached samples/tables.img 5000 502F 5000
 *
 * The arguments are an image for board 2, the first and the last address of the region, and up to 16 entries, all in hexadecimal. The exit
 * status is 0 unless the file can't be read or a call was refused. */
#include "image_file.h"

#include <cp1610.h>
#include <stdio.h>
#include <stdlib.h>

enum {
    /* One entry more than a call takes, so that too many are refused and not cut. */
    ENTRIES_ROOM = CP1610_MOST_ENTRIES + 1,
    /* The metering program's limit in cycles, so that the first answer is what `kit meter` prints. A limit of 0 would ask for 48. */
    LIMIT = 57
};

/* Which addresses are reached with D clear, and which with D set. */
static uint64_t clear[CP1610_SET_WORDS], set[CP1610_SET_WORDS];

static uint16_t address_of(const char *text) { return (uint16_t)strtoul(text, NULL, 16); }

/* A start that is not reached is an operand, a word of a table, or code that no entry leads to. */
static const char *reached(uint32_t start) { return cp1610_has(clear, (uint16_t)start) ? "reached" : "not reached"; }

static void print_region(const char *starts, const uint32_t *out) {
    printf("%s: ", starts);
    if (out[CP1610_HAS_WAIT])
        printf("longest wait %u at %04X (%s), ", out[CP1610_LONGEST], out[CP1610_LONGEST_START], reached(out[CP1610_LONGEST_START]));
    else
        printf("no wait, ");
    if (out[CP1610_HAS_OVER])
        printf("over the limit at %04X (%s)\n", out[CP1610_OVER_START], reached(out[CP1610_OVER_START]));
    else
        printf("none over the limit\n");
}

static void print_set(const uint32_t *out) {
    printf("%u addresses are reached, of which %u write R7", out[CP1610_ADDRESSES], out[CP1610_R7_WRITERS]);
    if (out[CP1610_HAS_R7_WRITER])
        printf(", the lowest %04X", out[CP1610_LOWEST_R7_WRITER]);
    printf("\n");
}

int main(int argc, char **argv) {
    if (argc < 4) {
        fprintf(stderr, "usage: reached IMAGE FIRST LAST [ENTRY..]\n");
        return 2;
    }
    struct image image = read_image(argv[1]);
    taken("load", cp1610_load(USUAL_BOARD, memory, MEMORY_WORDS, image.bytes, image.length));
    uint16_t first = address_of(argv[2]), last = address_of(argv[3]);
    uint16_t entries[ENTRIES_ROOM];
    size_t count = 0;
    for (int n = 4; n < argc && count < ENTRIES_ROOM; n++)
        entries[count++] = address_of(argv[n]);

    uint32_t found[CP1610_REACH_WORDS], all[CP1610_REGION_WORDS], members[CP1610_REGION_WORDS];
    taken("region", cp1610_region(memory, MEMORY_WORDS, CP1610_ALL_RAM, CP1610_ALL_RAM_WORDS, first, last, LIMIT, all,
                        CP1610_REGION_WORDS));
    taken("reach", cp1610_reach(memory, MEMORY_WORDS, CP1610_ALL_RAM, CP1610_ALL_RAM_WORDS, entries, count, clear, CP1610_SET_WORDS, set,
                       CP1610_SET_WORDS, found, CP1610_REACH_WORDS));
    taken("region_reached", cp1610_region_reached(memory, MEMORY_WORDS, CP1610_ALL_RAM, CP1610_ALL_RAM_WORDS, first, last, LIMIT, clear,
                                CP1610_SET_WORDS, set, CP1610_SET_WORDS, members, CP1610_REGION_WORDS));
    print_region("every address", all);
    print_set(found);
    print_region("those reached", members);
    return 0;
}
