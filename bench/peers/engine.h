/* The engine that the three ways share: a formula table over a run, in 64 lanes at once, from the last step to the first. */
#ifndef ENGINE_H
#define ENGINE_H
#include "common.h"

enum { LITERALS_A_BLOCK = 4, HALVES_A_BLOCK = 2 * LITERALS_A_BLOCK, MOST_BLOCKS = MOST_TABLE_ROWS / LITERALS_A_BLOCK };

/* Literals, conditions or their negations: the lanes of each, and, for each half of its lanes, what makes them. */
struct literal_block {
    _Alignas(16) union {
        uint64_t lanes[LITERALS_A_BLOCK];
        uint32_t half[HALVES_A_BLOCK];
    } truth;
    uint32_t bit[HALVES_A_BLOCK], wanted[HALVES_A_BLOCK], kept[HALVES_A_BLOCK];
};

/* Any other row but a constant. Its truth lives in it, so that at its turn it still has its own truth at the step after. */
struct gate {
    void (*judge)(struct gate *); /* judges this gate and those after it */
    struct gate *next;
    const uint64_t *first, *second;
    uint64_t truth, held_back, past_end;
};

struct plan {
    unsigned literals, gates;
    uint64_t constant[2];
    const uint64_t *verdict;
    struct literal_block block[MOST_BLOCKS];
    struct gate gate[MOST_TABLE_ROWS + 1];
};

/* Makes a sound table ready. A condition row r reads the run in the lanes kept[r]; in the others it, or "not" over it, is false. */
void make_plan(struct plan *plan, const struct row *row, unsigned rows, const uint64_t *kept);

/* The lanes in which the table holds of a run. */
uint64_t judge_run(struct plan *plan, const struct run *run);
#endif
