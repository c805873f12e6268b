/* Drives the meter, the lister, the assembler, the loaders and writers of images and of pairs, and the building of a set, whose machine
 * instructions bench/measure counts, those that take a map under all-RAM. Each line printed begins with what to divide by. */
#include <cp1610.h>
#include <stdio.h>
#include <string.h>

/* In cycles: what a limit of 0 asked for up to interface 4, so that the figures compare with those of before. */
enum { LIMIT = 57 };

static uint16_t mem[65536], back[65536];
static uint8_t file[CP1610_IMAGE_ROOM], bin[131072], cfg[CP1610_CFG_ROOM];
static uint64_t clear[CP1610_SET_WORDS], set[CP1610_SET_WORDS];

/* The same made-up words on every machine. */
static void fill(void) {
    uint32_t x = 12345;
    for (int i = 0; i < 65536; i++) {
        x = x * 1664525u + 1013904223u;
        mem[i] = (uint16_t)(x >> 16);
    }
}

/* Lists every address with both D and assembles each line; -1 where a call refuses. */
static int lines(void) {
    int count = 0;
    for (int address = 0; address < 4096; address++) {
        for (uint8_t d = 0; d < 2; d++) {
            uint8_t text[CP1610_TEXT_ROOM];
            uint32_t out[CP1610_LIST_WORDS];
            uint16_t words[CP1610_LINE_WORDS];
            if (cp1610_is_refused(cp1610_list(mem, 65536, CP1610_ALL_RAM, CP1610_ALL_RAM_WORDS, (uint16_t)address, d, text, sizeof text, out,
                    CP1610_LIST_WORDS)))
                return -1;
            if (cp1610_is_refused(cp1610_assemble(text, out[CP1610_TEXT_LENGTH], d, words, CP1610_LINE_WORDS)))
                return -1;
            count++;
        }
    }
    return count;
}

/* Says what was written and loaded, whether all words have come back, and clears them for the next. */
static int is_back(const char *what) {
    int equal = memcmp(mem, back, sizeof mem) == 0;
    printf("65536 words written and loaded as %s, %s\n", what, equal ? "equal" : "DIFFERENT");
    memset(back, 0, sizeof back);
    return equal;
}

static int image(void) {
    uint64_t written = cp1610_write(2, mem, 65536, 0, 65535, file, sizeof file);
    cp1610_load(2, back, 65536, file, cp1610_value_of(written));
    return is_back("an image");
}

static int pair(void) {
    uint32_t out[CP1610_PAIR_WORDS] = {0};
    cp1610_write_pair(mem, 65536, 0, 65535, bin, sizeof bin, cfg, sizeof cfg, out, CP1610_PAIR_WORDS);
    cp1610_load_pair(back, 65536, bin, out[CP1610_BIN_LENGTH], cfg, out[CP1610_CFG_LENGTH]);
    return is_back("a pair");
}

/* Makes opcodes of the made-up words, of which seven out of eight that name R7 name R6 instead, so that most paths go on. */
static void to_code(void) {
    for (int i = 0; i < 65536; i++)
        mem[i] = (mem[i] % 8 == 7 && mem[i] < 0xE000 ? mem[i] - 1 : mem[i]) % 1024;
}

static int count(const uint64_t *buffer) {
    int count = 0;
    for (int address = 0; address < 65536; address++)
        count += cp1610_has(buffer, (uint16_t)address);
    return count;
}

/* Builds a set from an entry that most words are reached from, and meters its members. A node is an address with the D that it is reached
 * with. */
static int reach(void) {
    static const uint16_t entries[] = {0x0110};
    uint32_t found[CP1610_REACH_WORDS], named[CP1610_REGION_WORDS];
    uint64_t built = cp1610_reach(mem, 65536, CP1610_ALL_RAM, CP1610_ALL_RAM_WORDS, entries, 1, clear, CP1610_SET_WORDS, set,
        CP1610_SET_WORDS, found, CP1610_REACH_WORDS);
    uint64_t metered = cp1610_region_reached(mem, 65536, CP1610_ALL_RAM, CP1610_ALL_RAM_WORDS, 0, 65535, LIMIT, clear, CP1610_SET_WORDS, set,
        CP1610_SET_WORDS, named, CP1610_REGION_WORDS);
    if (cp1610_is_refused(built) || cp1610_is_refused(metered))
        return 0;
    printf("%d nodes reached, at %u addresses\n", count(clear) + count(set), found[CP1610_ADDRESSES]);
    printf("%d members metered, longest wait %u at %04X\n", count(clear), named[CP1610_LONGEST], named[CP1610_LONGEST_START]);
    return 1;
}

int main(void) {
    fill();
    int equal = image() & pair();
    int listed = lines();
    printf("%d lines listed and assembled\n", listed);
    uint32_t named[CP1610_REGION_WORDS];
    uint64_t metered = cp1610_region(mem, 65536, CP1610_ALL_RAM, CP1610_ALL_RAM_WORDS, 0, 65535, LIMIT, named, CP1610_REGION_WORDS);
    printf("65536 starts metered, longest wait %u at %04X\n", named[CP1610_LONGEST], named[CP1610_LONGEST_START]);
    to_code();
    return !equal || listed < 0 || cp1610_is_refused(metered) || !reach();
}
