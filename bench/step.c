/* Measures cp1610_step over a loop of mixed instructions, and compares it with the plain interpreter step by step. bench/measure builds and
 * runs it.
 *
 * Arguments: the lines (default 3); the budget of cycles of a run (1,000,000); the flags and marks to start from, bit n for state word
 * 8 + n (0x100); how many runs to take the best time of (400); the number of the loop's map, 0 all-RAM, 1 a console's six ranges, 2 sixteen
 * of which the last decides (0); how many steps to compare on random memories (5,000,000); and a seed (1). They are read here so that no
 * compiler can fold them. The exit status is 0 where both agree on everything. */
#include "drive.h"

#include <stdio.h>
#include <string.h>

/* ---- the mixed loop, step by step */

static void run_proved(const struct load *l, struct spent *out) {
    uint64_t steps = 0, cycles = 0;
    while (cycles < l->budget) {
        uint64_t a = cp1610_step(out->state, CP1610_STATE_WORDS, mem, MEMORY, l->map.words, l->map.length, l->lines);
        if (cp1610_is_refused(a))
            break;
        cycles += cp1610_value_of(a);
        steps++;
    }
    out->steps = steps;
    out->cycles = cycles;
}

static void run_plain(const struct load *l, struct spent *out) {
    struct plain p;
    const struct plain_board board = plain_on(mem, MEMORY, &l->map);
    uint64_t steps = 0, cycles = 0;
    to_plain(&p, out->state);
    while (cycles < l->budget) {
        uint64_t a = plain_step(&p, &board, l->lines);
        if (cp1610_is_refused(a))
            break;
        cycles += cp1610_value_of(a);
        steps++;
    }
    out->steps = steps;
    out->cycles = cycles;
    from_plain(out->state, &p);
}

/* ---- random memories */

/* One step of both machines. A refused call keeps every word as it was given; a success gives 0 or 1 in the flags' words. */
static bool step_both(uint16_t *state, size_t room, size_t length, const struct map *map, uint32_t lines, uint64_t *answer) {
    uint16_t given[ROOM], want[ROOM];
    struct plain p;
    const struct plain_board board = plain_on(plain_mem, length, map);
    memcpy(given, state, sizeof given);
    memcpy(want, state, sizeof want);
    to_plain(&p, given);
    *answer = cp1610_step(state, room, mem, length, map->words, map->length, lines);
    uint64_t wanted = plain_refusal(&board);
    if (!wanted)
        wanted = plain_step(&p, &board, lines);
    if (!cp1610_is_refused(wanted))
        from_plain(want, &p);
    if (*answer == wanted && !memcmp(state, want, sizeof want) && !memcmp(mem, plain_mem, length * sizeof *mem))
        return true;
    printf("the two differ at word %04X, lines %08X\n", given[7] < length ? plain_mem[given[7]] : 0xFFFF, lines);
    show_map(map);
    show("given", given, 0);
    show("proved", state, *answer);
    show("plain", want, wanted);
    return false;
}

/* What was met: the kinds, and the refusals by their numbers. */
struct counts {
    uint64_t kinds[CP1610_EXECUTED + 1], refused[CP1610_SHORT_BUFFER + 1];
};

static void print_counts(const struct counts *n, uint64_t steps, uint64_t memories) {
    printf("compared     %llu steps on %llu memories and maps: %llu grants, %llu interrupts, %llu instructions; refused by 2 %llu, by 3 %llu,"
           " by 14 %llu, by 255 %llu\n",
        (unsigned long long)steps, (unsigned long long)memories, (unsigned long long)n->kinds[CP1610_GRANTED],
        (unsigned long long)n->kinds[CP1610_INTERRUPTED], (unsigned long long)n->kinds[CP1610_EXECUTED],
        (unsigned long long)n->refused[CP1610_IS_HALTED], (unsigned long long)n->refused[CP1610_UNSPECIFIED],
        (unsigned long long)n->refused[CP1610_BAD_MAP], (unsigned long long)n->refused[CP1610_NO_MAP]);
}

/* A memory and its map are left after some hundred steps, a machine now and then and where a step is refused. Now and then a step gets a
 * map that may be refused. */
static bool compare(uint64_t steps) {
    struct counts n = {0};
    uint64_t memories = 0;
    uint16_t state[ROOM];
    for (uint64_t done = 0; done < steps; memories++) {
        size_t length = any_memory(), room = CP1610_STATE_WORDS + below(SPARE + 1);
        uint64_t a = 0;
        struct map map = any_map(length);
        any_state(state, length);
        for (int k = 0; k < 400 && done < steps; k++, done++) {
            const struct map lent = one_in(64) ? any_wrong_map(length) : map;
            if (!step_both(state, room, length, &lent, any_lines(), &a))
                return false;
            (*(cp1610_is_refused(a) ? &n.refused[a] : &n.kinds[cp1610_kind_of(a)]))++;
            if (cp1610_is_refused(a) || one_in(16))
                any_state(state, length);
        }
    }
    print_counts(&n, steps, memories);
    return true;
}

/* ---- the edges of the calls */

static uint16_t state[ROOM];

static uint64_t step_of(size_t room, size_t length, const uint16_t *map, size_t map_length) {
    return cp1610_step(state, room, length ? mem : NULL, length, map, map_length, 3);
}

static uint64_t step_with(size_t length, const struct map *map) { return step_of(ROOM, length, map->words, map->length); }

static bool edges(void) {
    static const uint16_t reset[] = {0, 0, 0, 0, 0, 0, 0, 0x1000, 0, 0, 0, 0, 0, 0, 0, 0, 1, 0};
    uint16_t given[ROOM];
    bool good = true;
    for (size_t i = 0; i <= MEMORY; i++)
        mem[i] = before[i] = any();
    any_state(state, MEMORY);
    state[CP1610_HALTED] = 7;
    memcpy(given, state, sizeof given);
    for (size_t room = 0; room < CP1610_STATE_WORDS; room++) {
        good &= is("a short state is refused by 255", step_of(room, MEMORY + 1, CP1610_ALL_RAM, CP1610_ALL_RAM_WORDS) == CP1610_SHORT_BUFFER);
        good &= is("and so is its reset", cp1610_reset(state, room) == CP1610_SHORT_BUFFER);
    }
    good &= map_edges(step_with);
    good &= is("a long memory is refused by 1, before halted", step_of(ROOM, MEMORY + 1, NULL, 0) == CP1610_MEMORY_TOO_LONG);
    good &= is("a halted machine is refused by 2", step_of(ROOM, MEMORY, CP1610_ALL_RAM, CP1610_ALL_RAM_WORDS) == CP1610_IS_HALTED);
    good &= is("and with no memory and no range", step_of(ROOM, 0, NULL, 0) == CP1610_IS_HALTED);
    good &= is("a refused call alters nothing", !memcmp(state, given, sizeof given) && !memcmp(mem, before, sizeof mem));
    good &= is("reset answers kind 1", cp1610_reset(state, ROOM) == (uint64_t)CP1610_DONE << 32);
    good &= is("with document 01's state", !memcmp(state, reset, sizeof reset));
    good &= is("and keeps the rest", !memcmp(state + CP1610_STATE_WORDS, given + CP1610_STATE_WORDS, SPARE * sizeof *state));
    return good;
}

int main(int argc, char **argv) {
    struct load l = load_of(argv, argc);
    uint64_t steps = number(argv, argc, 6, "5000000");
    seed_with(number(argv, argc, 7, "1"));
    bool good = measure_both(&l, "cp1610_step", run_proved, "plain_step", run_plain);
    if (steps)
        good = edges() && compare(steps) && good;
    return good ? 0 : 1;
}
