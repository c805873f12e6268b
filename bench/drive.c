/* What the drivers of the step and of the run share; drive.h says what each function does. */
#include "drive.h"

#include <stdio.h>
#include <stdlib.h>
#include <string.h>
#include <time.h>

uint16_t mem[MEMORY + 1], plain_mem[MEMORY + 1], before[MEMORY + 1];

/* ---- the mixed loop: SDBD immediates, direct, R4, the stack, a call, branches, shifts, the status word */

enum { START = 0x1000, SUBROUTINE = 0x1800, SCRATCH = 0x300 };

static const uint16_t prologue[] = {
    0x2BC, 0x0200, /* MVII #$0200,R4 */
    0x2B8, 0xACE1, /* MVII #$ACE1,R0 */
};

static const uint16_t loop[] = {
    0x001, 0x2B9, 0x34, 0x12,               /* SDBD; MVII #$1234,R1 */
    0x0C1,                                  /* ADDR R0,R1 */
    0x261,                                  /* MVO@ R1,R4 */
    0x3BC, 0x03FF,                          /* ANDI #$03FF,R4 */
    0x051,                                  /* RLC R1 */
    0x1C8,                                  /* XORR R1,R0 */
    0x2F8, 0x9E37,                          /* ADDI #$9E37,R0 */
    0x378, 0x8000,                          /* CMPI #$8000,R0 */
    0x201, 0x0001,                          /* BC +$0001 */
    0x00A,                                  /* INCR R2 */
    0x004, 1 << 8 | SUBROUTINE >> 10 << 2, SUBROUTINE & 1023, /* JSR R5,$1800 */
    0x2A3,                                  /* MVI@ R4,R3 */
    0x014,                                  /* DECR R4 */
    0x09B,                                  /* MOVR R3,R3 */
    0x203, 0x0001,                          /* BPL +$0001 */
    0x00B,                                  /* INCR R3 */
    0x240, SCRATCH,                         /* MVO R0,$0300 */
    0x282, SCRATCH,                         /* MVI $0300,R2 */
    0x042,                                  /* SWAP R2 */
    0x210, 0x0001,                          /* BEXT 0,+$0001 */
    0x220, 34,                              /* B back to SDBD: opcode address + 1 - 34 */
};

static const uint16_t subroutine[] = {
    0x275, /* MVO@ R5,R6 */
    0x021, /* NEGR R1 */
    0x029, /* ADCR R1 */
    0x033, /* GSWD R3 */
    0x03B, /* RSWD R3 */
    0x108, /* SUBR R1,R0 */
    0x055, /* RLC R1,2 */
    0x019, /* COMR R1 */
    0x2B7, /* MVI@ R6,R7 */
};

static void load_mixed_loop(uint16_t *mem) {
    memset(mem, 0, MEMORY * sizeof *mem);
    memcpy(mem + START, prologue, sizeof prologue);
    memcpy(mem + START + sizeof prologue / sizeof *prologue, loop, sizeof loop);
    memcpy(mem + SUBROUTINE, subroutine, sizeof subroutine);
}

/* R4 and R5 on data, R6 on the stack, R7 on the loop; the flags and marks from the argument. */
static void first_state(uint16_t *state, unsigned flags) {
    memset(state, 0, CP1610_STATE_WORDS * sizeof *state);
    state[4] = state[5] = 0x200;
    state[6] = 0x300;
    state[7] = START;
    for (int n = 0; n < 10; n++)
        state[CP1610_S + n] = flags >> n & 1;
}

/* ---- the maps of the mixed loop, by their numbers */

static void add_range(struct map *map, uint16_t first, uint16_t last, uint16_t kind) {
    const uint16_t range[CP1610_RANGE_WORDS] = {first, last, kind};
    memcpy(map->words + map->length, range, sizeof range);
    map->length += CP1610_RANGE_WORDS;
}

/* 0 all-RAM; 1 six ranges, as a console has them; 2 sixteen ranges, of which the last has every word that is met. */
static struct map numbered_map(uint64_t number) {
    struct map map = {.length = 0};
    if (number == 1) {
        add_range(&map, 0x0000, 0x03FF, CP1610_RAM16);
        add_range(&map, 0x0400, 0x04FF, CP1610_RAM8);
        add_range(&map, 0x1000, 0x1FFF, CP1610_ROM);
        add_range(&map, 0x3000, 0x37FF, CP1610_ROM);
        add_range(&map, 0x3800, 0x39FF, CP1610_RAM8);
        add_range(&map, 0x5000, 0x6FFF, CP1610_ROM);
        return map;
    }
    for (uint16_t at = 0xFFF0; number == 2 && at < 0xFFFF; at++)
        add_range(&map, at, at, CP1610_ROM);
    add_range(&map, 0x0000, 0xFFFF, CP1610_RAM16);
    return map;
}

/* ---- the two machines side by side */

struct plain_board plain_on(uint16_t *words, size_t length, const struct map *map) {
    return (struct plain_board){words, length, map->words, map->length};
}

void to_plain(struct plain *p, const uint16_t *state) {
    memcpy(p->r, state, sizeof p->r);
    p->s = state[CP1610_S] != 0;
    p->z = state[CP1610_Z] != 0;
    p->o = state[CP1610_O] != 0;
    p->c = state[CP1610_C] != 0;
    p->i = state[CP1610_I] != 0;
    p->d = state[CP1610_D] != 0;
    p->halted = state[CP1610_HALTED] != 0;
    p->ready = state[CP1610_READY] != 0;
    p->level = state[CP1610_LEVEL] != 0;
    p->pending = state[CP1610_PENDING] != 0;
}

void from_plain(uint16_t *state, const struct plain *p) {
    const uint16_t marks[] = {p->s, p->z, p->o, p->c, p->i, p->d, p->halted, p->ready, p->level, p->pending};
    memcpy(state, p->r, sizeof p->r);
    memcpy(state + CP1610_S, marks, sizeof marks);
}

/* ---- the time of a step */

static uint32_t hash(const uint16_t *mem) {
    uint32_t h = 2166136261u;
    for (size_t i = 0; i < MEMORY; i++)
        h = (h ^ mem[i]) * 16777619u;
    return h;
}

static double now(void) {
    struct timespec t;
    clock_gettime(CLOCK_MONOTONIC, &t);
    return (double)t.tv_sec * 1e9 + (double)t.tv_nsec;
}

static struct spent measure(const char *name, const struct load *l, spends *run) {
    struct spent s = {.ns = 1e18};
    for (int i = 0; i < l->runs; i++) {
        load_mixed_loop(mem);
        first_state(s.state, l->flags);
        double begin = now();
        run(l, &s);
        double took = (now() - begin) / (double)(s.steps ? s.steps : 1);
        if (took < s.ns)
            s.ns = took;
    }
    s.hash = hash(mem);
    printf("%-12s %llu steps, %llu cycles, %.1f ns a step, memory %08x\n", name, (unsigned long long)s.steps,
        (unsigned long long)s.cycles, s.ns, s.hash);
    return s;
}

bool measure_both(const struct load *l, const char *name, spends *proved, const char *plain_name, spends *plain) {
    struct spent a = measure(name, l, proved), b = measure(plain_name, l, plain);
    bool same = a.steps == b.steps && a.cycles == b.cycles && a.hash == b.hash && !memcmp(a.state, b.state, sizeof a.state);
    if (!same)
        printf("the two differ on the mixed loop\n");
    return same;
}

/* ---- random machines */

static uint64_t seed;

void seed_with(uint64_t n) { seed = n * 0x9E3779B97F4A7C15u + 1; }

uint32_t any(void) {
    seed ^= seed << 13;
    seed ^= seed >> 7;
    seed ^= seed << 17;
    return (uint32_t)(seed >> 24);
}

uint32_t below(uint32_t n) { return any() % n; }

bool one_in(uint32_t n) { return below(n) == 0; }

/* Mostly short memories, so that reads and stores pass the end and instructions are met again; some whole. */
size_t any_memory(void) {
    size_t length = one_in(32) ? MEMORY : one_in(16) ? below(4) : below(2048);
    for (size_t i = 0; i < length; i++)
        mem[i] = one_in(2) ? any() : any() & 1023;
    memcpy(plain_mem, mem, length * sizeof *mem);
    return length;
}

/* Registers near the memory and near the ends of the words; flags as 0, 1 or any word. */
void any_state(uint16_t *state, size_t length) {
    for (int i = 0; i < 8; i++)
        state[i] = one_in(4) ? any() : one_in(4) ? (uint16_t)(any() % 5 - 2) : below((uint32_t)length + 2);
    for (int i = CP1610_S; i < ROOM; i++)
        state[i] = one_in(4) ? any() : any() & 1;
    if (!one_in(64))
        state[CP1610_HALTED] = 0;
}

/* INTRM and BUSRQ mostly high, so that instructions are met; the ignored bits are set at random. */
uint32_t any_lines(void) {
    uint32_t lines = any() ^ any() << 8;
    if (!one_in(4))
        lines |= CP1610_BUSRQ_HIGH;
    if (!one_in(3))
        lines |= CP1610_INTRM_HIGH;
    return lines;
}

/* An address in the memory or not far past it, at an end of the words, or anywhere. */
static uint16_t any_address(size_t length) {
    return one_in(8) ? any() : one_in(8) ? (uint16_t)(any() % 5 - 2) : below((uint32_t)length + 2);
}

/* All-RAM in one of four; else up to 16 ranges, which overlap, with a long one at the end in one of two so that much is mapped. */
struct map any_map(size_t length) {
    struct map map = {.length = 0};
    if (one_in(4)) {
        add_range(&map, 0x0000, 0xFFFF, CP1610_RAM16);
        return map;
    }
    for (uint32_t ranges = one_in(4) ? CP1610_MOST_RANGES : below(CP1610_MOST_RANGES); ranges > 0; ranges--) {
        uint16_t a = any_address(length), b = one_in(2) ? any_address(length) : a;
        add_range(&map, a < b ? a : b, a < b ? b : a, below(3));
    }
    if (one_in(2) && map.length < CP1610_MOST_RANGES * CP1610_RANGE_WORDS)
        add_range(&map, 0x0000, 0xFFFF, below(3));
    return map;
}

/* A good map with a range too many, a range of which the first address is above the last, a kind that there is none of, which counts in
 * the first 16 ranges only, or a word or two more than its ranges have. */
struct map any_wrong_map(size_t length) {
    struct map map = any_map(length);
    uint32_t spoiled = below(4);
    while (spoiled == 0 && map.length <= CP1610_MOST_RANGES * CP1610_RANGE_WORDS)
        add_range(&map, 0x0000, 0xFFFF, below(3));
    if (spoiled == 1 && map.length > 0)
        map.words[below((uint32_t)map.length / CP1610_RANGE_WORDS) * CP1610_RANGE_WORDS] = 0xFFFF;
    if ((spoiled == 2 || one_in(4)) && map.length > 0)
        map.words[map.length - 1] = CP1610_RAM8 + 1 + below(3);
    for (uint32_t more = spoiled == 3 ? 1 + below(2) : 0; more > 0; more--)
        map.words[map.length++] = any() & 1;
    return map;
}

void show(const char *name, const uint16_t *state, uint64_t answer) {
    printf("%-7s", name);
    for (int i = 0; i < CP1610_STATE_WORDS; i++)
        printf(" %04X", state[i]);
    printf(" answer %llX\n", (unsigned long long)answer);
}

void show_map(const struct map *map) {
    printf("map    ");
    for (size_t i = 0; i < map->length; i++)
        printf("%s%04X", i % CP1610_RANGE_WORDS ? "-" : " ", map->words[i]);
    printf("\n");
}

bool is(const char *what, bool holds) {
    if (!holds)
        printf("wrong: %s\n", what);
    return holds;
}

/* ---- the edges of a map */

/* A map of so many ranges of 8-bit RAM over all addresses. */
static struct map ranges_of(int count) {
    struct map map = {.length = 0};
    for (int n = 0; n < count; n++)
        add_range(&map, 0x0000, 0xFFFF, CP1610_RAM8);
    return map;
}

static bool none_edges(asks *call) {
    bool good = true;
    for (size_t length = 0; length < MAP_ROOM; length++) {
        struct map map = ranges_of(CP1610_MOST_RANGES + 1);
        map.length = length;
        if (length % CP1610_RANGE_WORDS)
            good &= is("a length that is no multiple of 3 is no map, before 1", call(MEMORY + 1, &map) == CP1610_NO_MAP);
        else
            good &= is("a map of any length is refused by 1 first", call(MEMORY + 1, &map) == CP1610_MEMORY_TOO_LONG);
    }
    for (int n = 0; n <= CP1610_MOST_RANGES; n++) {
        struct map map = ranges_of(CP1610_MOST_RANGES + 1);
        map.words[n * CP1610_RANGE_WORDS + 2] = CP1610_RAM8 + 1;
        uint64_t wanted = n < CP1610_MOST_RANGES ? CP1610_NO_MAP : CP1610_BAD_MAP;
        good &= is("a kind above 2 is no map, in the first 16 ranges", call(MEMORY, &map) == wanted);
    }
    return good;
}

bool map_edges(asks *call) {
    struct map most = ranges_of(CP1610_MOST_RANGES), more = ranges_of(CP1610_MOST_RANGES + 1);
    bool good = none_edges(call);
    good &= is("17 ranges are refused by 14", call(MEMORY, &more) == CP1610_BAD_MAP);
    good &= is("16 are not", call(MEMORY, &most) != CP1610_BAD_MAP);
    for (int n = 0; n < CP1610_MOST_RANGES; n++) {
        struct map map = most;
        map.words[n * CP1610_RANGE_WORDS] = 1;
        map.words[n * CP1610_RANGE_WORDS + 1] = 0;
        good &= is("a first above its last is refused by 14", call(MEMORY, &map) == CP1610_BAD_MAP);
        good &= is("which comes after 1", call(MEMORY + 1, &map) == CP1610_MEMORY_TOO_LONG);
        map.words[n * CP1610_RANGE_WORDS + 1] = 1;
        good &= is("a range of one word is not", call(MEMORY, &map) != CP1610_BAD_MAP);
    }
    return good;
}

uint64_t number(char **argv, int argc, int n, const char *fallback) {
    return strtoull(n < argc ? argv[n] : fallback, NULL, 0);
}

struct load load_of(char **argv, int argc) {
    return (struct load){
        .lines = (uint32_t)number(argv, argc, 1, "3"),
        .budget = (uint32_t)number(argv, argc, 2, "1000000"),
        .flags = (unsigned)number(argv, argc, 3, "0x100"),
        .runs = (int)number(argv, argc, 4, "400"),
        .map = numbered_map(number(argv, argc, 5, "0")),
    };
}
