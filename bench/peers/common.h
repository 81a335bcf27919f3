/* What the peers share: document 01's limits and rows, a suite once it is checked, and the marks that a way of judging sets. */
#ifndef COMMON_H
#define COMMON_H
#include <stdbool.h>
#include <stddef.h>
#include <stdint.h>

enum {
    MOST_CONDITIONS = 32,
    MOST_REQUIREMENTS = 16,
    MOST_RUNS = 64,
    MOST_ROWS = 32,
    MOST_TABLE_ROWS = 224,
    MOST_STEPS = 4096,
    LEAST_BYTES = 4,
    MOST_BYTES = 65535,
    /* Each occurrence but one needs a row that joins it to the others. */
    MOST_OCCURRENCES = MOST_ROWS / 2
};

enum kind {
    NEVER, ALWAYS, CONDITION, NOT, AND, OR, STRONG_NEXT, WEAK_NEXT, UNTIL, RELEASE, FINALLY, GLOBALLY, WEAK_UNTIL, KINDS
};

struct row {
    uint8_t kind, first, second;
};

struct requirement {
    unsigned rows, occurrences;
    struct row row[MOST_ROWS];
    uint8_t occurrence[MOST_OCCURRENCES]; /* the condition rows, ascending */
};

struct run {
    unsigned steps;
    const uint32_t *word;
};

struct suite {
    unsigned conditions, requirements, runs;
    struct requirement requirement[MOST_REQUIREMENTS];
    struct run run[MOST_RUNS];
};

/* Sets of runs, a bit a run. */
struct marks {
    uint64_t held;
    uint64_t covered[MOST_OCCURRENCES]; /* of each occurrence */
};

struct refusal {
    unsigned number; /* 0: none */
    size_t place;
};

/* A way of judging: sets the marks, all 0 before, of one requirement over all runs. */
typedef void judge_way(const struct suite *, const struct requirement *, struct marks *);

/* A whole sheet program: a suite on standard input, its sheet or refusal on standard output. */
int sheet_program(judge_way *judge);

/* Reads standard input to its end, or to one byte more than a suite may have. */
size_t read_input(uint8_t bytes[MOST_BYTES + 1]);
uint32_t little_endian(const uint8_t *bytes, unsigned count);
bool row_is_sound(struct row row, unsigned number, unsigned conditions);
/* The bits of a step that no condition has. */
uint32_t stray_bits(unsigned conditions);
void print_refusal(struct refusal refusal);
/* The row that names row r of a requirement; the last row has none and gets its own number. */
unsigned parent_of(const struct requirement *requirement, unsigned r);
#endif
