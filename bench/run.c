/* Measures cp1610_run over a loop of mixed instructions, and compares it with a run of the plain interpreter's steps. bench/measure builds and
 * runs it.
 *
 * Arguments: those of bench/step.c, but that the sixth is how many runs to compare (default 200,000) on random memories, states, lines and
 * budgets. The exit status is 0 where both agree on everything. */
#include "drive.h"

#include <stdio.h>
#include <string.h>

enum { BUDGET_LIMIT = 1000000, OUT_ROOM = CP1610_RUN_WORDS + 4 };

/* ---- a run of plain steps, as document 01 has it */

/* Whether the next step would be refused by 3: it is made, on copies. */
static bool is_unspecified_next(const struct plain *p, const struct plain_board *b, uint32_t lines) {
    static uint16_t copy[MEMORY];
    struct plain q = *p;
    struct plain_board copied = *b;
    memcpy(copy, b->words, b->length * sizeof *copy);
    copied.words = copy;
    return plain_step(&q, &copied, lines) == CP1610_UNSPECIFIED;
}

static uint64_t plain_run(struct plain *p, const struct plain_board *b, uint32_t lines, uint32_t budget, uint32_t *out) {
    uint64_t refused = plain_refusal(b);
    if (refused)
        return refused;
    if (budget > BUDGET_LIMIT)
        return CP1610_BUDGET_TOO_HIGH;
    if (p->halted)
        return CP1610_IS_HALTED;
    uint32_t steps = 0, cycles = 0;
    while (cycles < budget && !p->halted) {
        uint64_t a = plain_step(p, b, lines);
        if (cp1610_is_refused(a))
            break;
        cycles += cp1610_value_of(a);
        steps++;
    }
    out[CP1610_STEPS] = steps;
    out[CP1610_CYCLES] = cycles;
    out[CP1610_CAUSE] = CP1610_BY_BUDGET;
    if (p->halted)
        out[CP1610_CAUSE] = CP1610_BY_HALT;
    else if (is_unspecified_next(p, b, lines))
        out[CP1610_CAUSE] = CP1610_BY_UNSPECIFIED;
    return (uint64_t)CP1610_DONE << 32;
}

/* ---- the mixed loop in one call */

static void run_proved(const struct load *l, struct spent *s) {
    uint32_t out[CP1610_RUN_WORDS] = {0};
    cp1610_run(s->state, CP1610_STATE_WORDS, mem, MEMORY, l->map.words, l->map.length, l->lines, l->budget, out, CP1610_RUN_WORDS);
    s->steps = out[CP1610_STEPS];
    s->cycles = out[CP1610_CYCLES];
}

static void run_plain(const struct load *l, struct spent *s) {
    uint32_t out[CP1610_RUN_WORDS] = {0};
    struct plain p;
    const struct plain_board board = plain_on(mem, MEMORY, &l->map);
    to_plain(&p, s->state);
    plain_run(&p, &board, l->lines, l->budget, out);
    from_plain(s->state, &p);
    s->steps = out[CP1610_STEPS];
    s->cycles = out[CP1610_CYCLES];
}

/* ---- random memories and budgets */

/* Mostly few cycles, so that a run often ends near a halt or an unspecified form; some near the limit, on both sides. */
static uint32_t any_budget(void) {
    if (one_in(512))
        return BUDGET_LIMIT - below(3);
    if (one_in(64))
        return one_in(2) ? BUDGET_LIMIT + 1 : BUDGET_LIMIT + 1 + any();
    return one_in(4) ? below(20000) : below(60);
}

/* Words that end a run, sown into a memory: HLT, and jumps with bits 3. */
static void sow_ends(size_t length) {
    for (size_t n = below(1 + (uint32_t)length / 8); length > 1 && n > 0; n--) {
        size_t at = below((uint32_t)length - 1);
        mem[at] = plain_mem[at] = one_in(2) ? 0x000 : 0x004;
        if (mem[at] == 0x004)
            mem[at + 1] = plain_mem[at + 1] = any() | 3;
    }
}

struct counts {
    uint64_t steps, causes[3], refused[CP1610_SHORT_BUFFER + 1];
};

static void count(struct counts *n, uint64_t answer, const uint32_t *out) {
    if (cp1610_is_refused(answer)) {
        n->refused[answer]++;
        return;
    }
    n->steps += out[CP1610_STEPS];
    n->causes[out[CP1610_CAUSE]]++;
}

/* One run of both machines, with more room than is named. A refused call keeps every word as it was given. */
static bool run_both(uint16_t *state, size_t room, size_t length, const struct map *map, struct counts *n) {
    uint16_t given[ROOM], want[ROOM];
    uint32_t out[OUT_ROOM], want_out[OUT_ROOM], lines = any_lines(), budget = any_budget();
    struct plain p;
    const struct plain_board board = plain_on(plain_mem, length, map);
    memcpy(given, state, sizeof given);
    memcpy(want, state, sizeof want);
    for (int i = 0; i < OUT_ROOM; i++)
        out[i] = want_out[i] = any();
    to_plain(&p, given);
    size_t out_room = CP1610_RUN_WORDS + below(OUT_ROOM - CP1610_RUN_WORDS + 1);
    uint64_t a = cp1610_run(state, room, mem, length, map->words, map->length, lines, budget, out, out_room);
    uint64_t wanted = plain_run(&p, &board, lines, budget, want_out);
    if (!cp1610_is_refused(wanted))
        from_plain(want, &p);
    if (a == wanted && !memcmp(state, want, sizeof want) && !memcmp(out, want_out, sizeof out)
        && !memcmp(mem, plain_mem, length * sizeof *mem)) {
        count(n, a, out);
        return true;
    }
    printf("the two differ at lines %08X, budget %u, in %zu words\n", lines, budget, length);
    show_map(map);
    show("given", given, 0);
    show("proved", state, a);
    show("plain", want, wanted);
    printf("proved %u %u %u, plain %u %u %u\n", out[0], out[1], out[2], want_out[0], want_out[1], want_out[2]);
    return false;
}

static void print_counts(const struct counts *n, uint64_t runs, uint64_t memories) {
    printf("compared     %llu runs of %llu steps on %llu memories and maps: %llu halted, %llu unspecified, %llu budget; refused by 2 %llu,"
           " by 4 %llu, by 14 %llu, by 255 %llu\n",
        (unsigned long long)runs, (unsigned long long)n->steps, (unsigned long long)memories,
        (unsigned long long)n->causes[CP1610_BY_HALT], (unsigned long long)n->causes[CP1610_BY_UNSPECIFIED],
        (unsigned long long)n->causes[CP1610_BY_BUDGET], (unsigned long long)n->refused[CP1610_IS_HALTED],
        (unsigned long long)n->refused[CP1610_BUDGET_TOO_HIGH], (unsigned long long)n->refused[CP1610_BAD_MAP],
        (unsigned long long)n->refused[CP1610_NO_MAP]);
}

/* A memory and its map are left after some runs. A machine goes on from where a run left it, now and then from anywhere. Now and then a
 * run gets a map that may be refused. */
static bool compare(uint64_t runs) {
    struct counts n = {0};
    uint64_t memories = 0;
    uint16_t state[ROOM];
    for (uint64_t done = 0; done < runs; memories++) {
        size_t length = any_memory(), room = CP1610_STATE_WORDS + below(SPARE + 1);
        const struct map map = any_map(length);
        if (one_in(2))
            sow_ends(length);
        any_state(state, length);
        for (int k = 0; k < 20 && done < runs; k++, done++) {
            const struct map lent = one_in(64) ? any_wrong_map(length) : map;
            if (!run_both(state, room, length, &lent, &n))
                return false;
            if (state[CP1610_HALTED] ? one_in(2) : one_in(3))
                any_state(state, length);
        }
    }
    print_counts(&n, runs, memories);
    return true;
}

/* ---- the edges of the call */

static uint16_t state[ROOM];
static uint32_t out[OUT_ROOM];

/* With a budget that is too high. */
static uint64_t run_of(size_t room, size_t length, const uint16_t *map, size_t map_length, size_t out_room) {
    return cp1610_run(state, room, mem, length, map, map_length, 3, BUDGET_LIMIT + 1, out, out_room);
}

static uint64_t run_with(size_t length, const struct map *map) { return run_of(ROOM, length, map->words, map->length, OUT_ROOM); }

/* With a budget that is not. */
static uint64_t run_for(uint32_t budget, size_t length) {
    return cp1610_run(state, ROOM, length ? mem : NULL, length, CP1610_ALL_RAM, CP1610_ALL_RAM_WORDS, 3, budget, out, OUT_ROOM);
}

static bool edges(void) {
    uint16_t given[ROOM];
    uint32_t given_out[OUT_ROOM];
    const uint16_t *map = CP1610_ALL_RAM;
    const size_t words = CP1610_ALL_RAM_WORDS;
    bool good = true;
    for (size_t i = 0; i <= MEMORY; i++)
        mem[i] = before[i] = any();
    for (int i = 0; i < OUT_ROOM; i++)
        out[i] = given_out[i] = any();
    any_state(state, MEMORY);
    state[CP1610_HALTED] = 7;
    memcpy(given, state, sizeof given);
    for (size_t room = 0; room < CP1610_STATE_WORDS; room++)
        good &= is("a short state is refused by 255", run_of(room, MEMORY + 1, map, words, OUT_ROOM) == CP1610_SHORT_BUFFER);
    for (size_t room = 0; room < CP1610_RUN_WORDS; room++)
        good &= is("and so is a short out", run_of(ROOM, MEMORY + 1, map, words, room) == CP1610_SHORT_BUFFER);
    good &= map_edges(run_with);
    good &= is("a long memory is refused by 1", run_of(ROOM, MEMORY + 1, map, words, OUT_ROOM) == CP1610_MEMORY_TOO_LONG);
    good &= is("a high budget by 4, before halted", run_of(ROOM, MEMORY, map, words, OUT_ROOM) == CP1610_BUDGET_TOO_HIGH);
    good &= is("and without ranges", run_of(ROOM, MEMORY, NULL, 0, OUT_ROOM) == CP1610_BUDGET_TOO_HIGH);
    good &= is("a halted machine by 2", run_for(0, MEMORY) == CP1610_IS_HALTED);
    good &= is("and with no memory", run_for(BUDGET_LIMIT, 0) == CP1610_IS_HALTED);
    good &= is("a refused call alters no state and no memory", !memcmp(state, given, sizeof given) && !memcmp(mem, before, sizeof mem));
    good &= is("and no out", !memcmp(out, given_out, sizeof out));
    return good;
}

int main(int argc, char **argv) {
    struct load l = load_of(argv, argc);
    uint64_t runs = number(argv, argc, 6, "200000");
    seed_with(number(argv, argc, 7, "1"));
    bool good = measure_both(&l, "cp1610_run", run_proved, "plain_run", run_plain);
    if (runs)
        good = edges() && compare(runs) && good;
    return good ? 0 : 1;
}
