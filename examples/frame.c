/* Loads an image file and runs it for the cycles of one video frame under a console's map, then prints the machine and what its stores
 * changed in each range of the map. A first program to copy from.
 *
 *     (cd crates/cp1610 && rt lib)
 *     cc -O2 -Iinclude examples/frame.c crates/cp1610/out/libcp1610.a -o target/frame
 *     target/frame                  the image below
 *     target/frame game.img 7       a file, for board 7 (2 where no board is given)
 *
 * The exit status is 0 unless a file can't be read or a call was refused. */
#include "image_file.h"

#include <cp1610.h>
#include <stdio.h>
#include <stdlib.h>
#include <string.h>

enum {
    /* CPU cycles in a frame of an NTSC picture, as is customary for this console. The figure is this example's own: the core
     * knows nothing of frames, and takes any budget up to 1,000,000. */
    FRAME_CYCLES = 14934
};

/* A console's map: what is not in it is empty. The core knows no console, so these ranges are this example's own, too. */
static const uint16_t map[] = {
    0x0100, 0x01EF, CP1610_RAM8,  /* scratch */
    0x0200, 0x035F, CP1610_RAM16, /* system */
    0x1000, 0x1FFF, CP1610_ROM,   /* the console's own program, where a machine starts after reset */
    0x5000, 0x6FFF, CP1610_ROM,   /* the cartridge */
};
enum { MAP_WORDS = sizeof map / sizeof *map };

/* What runs where no file is given. Numbers have the high byte first. */
static const uint8_t built_in_image[] = {
    'I', 'D', 0x00, 0x02,               /* an image for board 2 */
    'A', 'T', 0x10, 0x00, 0x00, 0x03,   /* a record at $1000 of three words: */
    0x00, 0x04, 0x03, 0x50, 0x00, 0x00, /*     J $5000 */
    'A', 'T', 0x50, 0x00, 0x00, 0x09,   /* a record at $5000 of nine words: */
    0x00, 0x08,                         /*     INCR R0 */
    0x02, 0x40, 0x01, 0x00,             /*     MVO R0,$0100, whose 8-bit word takes the low byte */
    0x02, 0x40, 0x02, 0x00,             /*     MVO R0,$0200, whose 16-bit word takes all of it */
    0x02, 0x40, 0x50, 0x00,             /*     MVO R0,$5000, a stray store onto INCR, which is ROM */
    0x02, 0x20, 0x00, 0x08,             /*     B -$0008, back to INCR */
    'O', 'K', 0xBF, 0x52,               /* the end, and the sum of all numbers before it, modulo 65,536 */
};

static uint16_t loaded_memory[MEMORY_WORDS];

static void print_state(const uint16_t *state) {
    static const char *const marks[] = {"S", "Z", "O", "C", "I", "D", "halted", "ready", "level", "pending"};
    for (int n = CP1610_R0; n <= CP1610_R7; n++)
        printf("R%d %04X%s", n, state[n], n < CP1610_R7 ? "  " : "\n");
    printf("set:");
    for (int n = CP1610_S; n < CP1610_STATE_WORDS; n++)
        if (state[n])
            printf(" %s", marks[n - CP1610_S]);
    printf("\n");
}

/* A range of ROM has to have changed nowhere. */
static void print_changes(const uint16_t *range) {
    static const char *const kinds[] = {"ROM", "16-bit RAM", "8-bit RAM"};
    unsigned changed = 0, first = 0;
    for (unsigned at = range[1] + 1u; at-- > range[0];)
        if (memory[at] != loaded_memory[at]) {
            changed++;
            first = at;
        }
    printf("%04X-%04X %-10s words changed: %u", range[0], range[1], kinds[range[2]], changed);
    if (changed)
        printf(", the first %04X, from %04X to %04X", first, loaded_memory[first], memory[first]);
    printf("\n");
}

int main(int argc, char **argv) {
    static const char *const causes[] = {"the machine halted", "the next instruction is unspecified", "the frame is over"};
    struct image image = {built_in_image, sizeof built_in_image};
    if (argc > 1)
        image = read_image(argv[1]);
    uint16_t board = argc > 2 ? (uint16_t)strtoul(argv[2], NULL, 0) : USUAL_BOARD;

    /* The loader looks at the whole file before it stores the first word. It takes no map: ROM is loaded, too. */
    uint64_t loaded = taken("load", cp1610_load(board, memory, MEMORY_WORDS, image.bytes, image.length));
    printf("board %u, records loaded: %u\n", board, cp1610_value_of(loaded));
    memcpy(loaded_memory, memory, sizeof memory);

    uint16_t state[CP1610_STATE_WORDS];
    taken("reset", cp1610_reset(state, CP1610_STATE_WORDS));

    /* Both lines high: no interrupt and no bus request. They stay as they are for the whole call, so a console that changes them
     * within a frame makes several shorter runs. */
    uint32_t lines = CP1610_INTRM_HIGH | CP1610_BUSRQ_HIGH;
    uint32_t out[CP1610_RUN_WORDS];
    taken("run", cp1610_run(state, CP1610_STATE_WORDS, memory, MEMORY_WORDS, map, MAP_WORDS, lines, FRAME_CYCLES, out, CP1610_RUN_WORDS));
    printf("%u steps in %u cycles: %s\n", out[CP1610_STEPS], out[CP1610_CYCLES], causes[out[CP1610_CAUSE]]);
    print_state(state);
    for (int n = 0; n < MAP_WORDS; n += CP1610_RANGE_WORDS)
        print_changes(map + n);
    return 0;
}
