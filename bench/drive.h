/* What the drivers of the step and of the run share: the mixed loop and its measure, and random machines. */
#ifndef DRIVE_H
#define DRIVE_H

#include <cp1610.h>

#include "plain.h"

enum { MEMORY = 65536, SPARE = 6, ROOM = CP1610_STATE_WORDS + SPARE };

/* A map with room for a range more than a call takes and for words that make no range. */
enum { MAP_ROOM = (CP1610_MOST_RANGES + 1) * CP1610_RANGE_WORDS + 2 };
struct map {
    uint16_t words[MAP_ROOM];
    size_t length;
};

/* The proved machine's memory, the plain one's, and one to remember, each a word longer than a call takes. */
extern uint16_t mem[MEMORY + 1], plain_mem[MEMORY + 1], before[MEMORY + 1];

void to_plain(struct plain *p, const uint16_t *state);
void from_plain(uint16_t *state, const struct plain *p);

/* What is run over the mixed loop: the lines, the budget of cycles, the flags and marks to start from (bit n for state word
 * 8 + n), how many runs to take the best time of, and the map. */
struct load {
    uint32_t lines, budget;
    unsigned flags;
    int runs;
    struct map map;
};

struct spent {
    uint64_t steps, cycles;
    uint16_t state[CP1610_STATE_WORDS];
    uint32_t hash;
    double ns; /* of the best run, a step */
};

/* Runs on `mem` from `state`, and sets the state, the steps and the cycles. */
typedef void spends(const struct load *, struct spent *);

/* Times both on the mixed loop, prints the figures, and says whether they agree. */
bool measure_both(const struct load *l, const char *name, spends *proved, const char *plain_name, spends *plain);

/* Random numbers, from a seed. */
void seed_with(uint64_t seed);
uint32_t any(void);
uint32_t below(uint32_t n);
bool one_in(uint32_t n);

/* A random memory in `mem` and `plain_mem`, and its length; a state of ROOM words near it; lines; a map near it that is good, and one
 * that may be refused. */
size_t any_memory(void);
void any_state(uint16_t *state, size_t length);
uint32_t any_lines(void);
struct map any_map(size_t length);
struct map any_wrong_map(size_t length);

/* What the plain machine sees of `plain_mem` or `mem` under a map. */
struct plain_board plain_on(uint16_t *words, size_t length, const struct map *map);

void show(const char *name, const uint16_t *state, uint64_t answer);
void show_map(const struct map *map);

/* Prints what is wrong, if it does not hold. */
bool is(const char *what, bool holds);

/* Whether a call with a memory of this length and this map, and with all else that it can be refused for, is refused for the map where
 * it has to be: by 255 before 1, and by 14 after it. */
typedef uint64_t asks(size_t length, const struct map *map);
bool map_edges(asks *call);

/* The arguments: the load, and the numbers after it. */
struct load load_of(char **argv, int argc);
uint64_t number(char **argv, int argc, int n, const char *fallback);

#endif
