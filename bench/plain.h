/* A plain interpreter of the CP1610, written from document 01 with no regard to the proved code: what that is compared with. */
#ifndef PLAIN_H
#define PLAIN_H

#include <stdbool.h>
#include <stddef.h>
#include <stdint.h>

/* R0 to R7, the flags and the marks. */
struct plain {
    uint16_t r[8];
    bool s, z, o, c, i, d, halted, ready, level, pending;
};

/* The lent words and the board's map, as cp1610_step takes them. */
struct plain_board {
    uint16_t *words;
    size_t length;
    const uint16_t *map;
    size_t map_length;
};

/* What every call with a map tests first: 255 for a map that is none, 1, 14; 0 where it is refused by none of these. */
uint64_t plain_refusal(const struct plain_board *b);

/* One step on a board that is not refused, answered as cp1610_step answers: a refusal's number, or the kind in the high half and the
 * cycles in the low one. */
uint64_t plain_step(struct plain *p, const struct plain_board *b, uint32_t lines);

#endif
