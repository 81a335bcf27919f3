/* suites FOLDER: writes the benchmark's suites, and the input of the peer `truth`, into a folder. Always the same bytes.
   A requirement is drawn again until it holds of three runs in four, as on a bench; a way that skips the other runs gains little. */
#include "peers/engine.h"
#include <stdio.h>
#include <stdlib.h>

/* What one suite has; its words are shared out evenly over its runs. */
struct shape {
    const char *name;
    unsigned requirements, rows, occurrences, runs, words;
};

enum { CONDITIONS = 8 };

/* The three sizes of a suite, then each size of a middling suite doubled alone. */
static const struct shape shapes[] = {
    {"typical", 4, 12, 5, 10, 1000},
    {"full", 16, 31, 16, 64, 15884},
    {"steps-64", 4, 16, 8, 8, 8 * 64},
    {"steps-128", 4, 16, 8, 8, 8 * 128},
    {"steps-256", 4, 16, 8, 8, 8 * 256},
    {"steps-512", 4, 16, 8, 8, 8 * 512},
    {"steps-1024", 4, 16, 8, 8, 8 * 1024},
    {"rows-4", 4, 4, 2, 8, 8 * 128},
    {"rows-8", 4, 8, 2, 8, 8 * 128},
    {"rows-16", 4, 16, 2, 8, 8 * 128},
    {"rows-32", 4, 32, 2, 8, 8 * 128},
    {"occurrences-1", 4, 32, 1, 8, 8 * 128},
    {"occurrences-2", 4, 32, 2, 8, 8 * 128},
    {"occurrences-4", 4, 32, 4, 8, 8 * 128},
    {"occurrences-8", 4, 32, 8, 8, 8 * 128},
    {"occurrences-16", 4, 32, 16, 8, 8 * 128},
    {"runs-4", 4, 16, 8, 4, 4 * 128},
    {"runs-8", 4, 16, 8, 8, 8 * 128},
    {"runs-16", 4, 16, 8, 16, 16 * 128},
    {"runs-32", 4, 16, 8, 32, 32 * 128},
    {"runs-64", 4, 16, 8, 64, 64 * 128},
    {"requirements-1", 1, 16, 8, 8, 8 * 128},
    {"requirements-2", 2, 16, 8, 8, 8 * 128},
    {"requirements-4", 4, 16, 8, 8, 8 * 128},
    {"requirements-8", 8, 16, 8, 8, 8 * 128},
    {"requirements-16", 16, 16, 8, 8, 8 * 128},
};

static uint64_t chance;
static uint32_t words[MOST_BYTES / 4];
static struct suite suite;

/* A number below `many`, by the generator splitmix64. */
static unsigned pick(unsigned many)
{
    uint64_t z = chance += 0x9E3779B97F4A7C15u;
    z = (z ^ z >> 30) * 0xBF58476D1CE4E5B9u;
    z = (z ^ z >> 27) * 0x94D049BB133111EBu;
    return (unsigned)((z ^ z >> 31) >> 32) % many;
}

static unsigned add_row(struct requirement *requirement, unsigned kind, unsigned first, unsigned second)
{
    requirement->row[requirement->rows] = (struct row){(uint8_t)kind, (uint8_t)first, (uint8_t)second};
    return requirement->rows++;
}

/* A random formula with so many condition rows and so many rows over one row; the number of its top row. */
static unsigned grow(struct requirement *requirement, unsigned occurrences, unsigned over_one)
{
    static const uint8_t one[] = {STRONG_NEXT, WEAK_NEXT, FINALLY, GLOBALLY}, two[] = {AND, OR, UNTIL, RELEASE, WEAK_UNTIL};
    if (occurrences == 1 && over_one == 0)
        return add_row(requirement, CONDITION, pick(CONDITIONS), 0);
    if (pick(occurrences - 1 + over_one) < over_one) {
        unsigned child = grow(requirement, occurrences, over_one - 1);
        bool negate = requirement->row[child].kind == CONDITION && pick(2) == 0;
        return add_row(requirement, negate ? NOT : one[pick(sizeof one)], child, 0);
    }
    unsigned left = 1 + pick(occurrences - 1), over_left = pick(over_one + 1);
    unsigned first = grow(requirement, left, over_left);
    unsigned second = grow(requirement, occurrences - left, over_one - over_left);
    return add_row(requirement, two[pick(sizeof two)], first, second);
}

static bool holds_mostly(const struct requirement *requirement)
{
    static struct plan plan;
    uint64_t kept[MOST_ROWS];
    uint64_t held = 0;
    for (unsigned r = 0; r < requirement->rows; r++)
        kept[r] = UINT64_MAX;
    make_plan(&plan, requirement->row, requirement->rows, kept);
    for (unsigned j = 0; j < suite.runs; j++)
        held += judge_run(&plan, &suite.run[j]) & 1;
    return 4 * held >= 3 * suite.runs;
}

/* A step at which each condition is on three times in four. */
static uint32_t draw_step(void)
{
    uint32_t step = 0;
    for (unsigned c = 0; c < CONDITIONS; c++)
        step |= (uint32_t)(pick(4) != 0) << c;
    return step;
}

/* Run j and requirement q have their own chances, so that a suite with more of them has the same ones first. */
static void draw_suite(const struct shape *shape)
{
    uint32_t *word = words;
    suite.requirements = shape->requirements;
    suite.runs = shape->runs;
    for (unsigned j = 0; j < shape->runs; j++) {
        chance = 1000 + j;
        suite.run[j] = (struct run){shape->words / shape->runs + (j < shape->words % shape->runs), word};
        for (unsigned i = 0; i < suite.run[j].steps; i++)
            *word++ = draw_step();
    }
    for (unsigned q = 0; q < shape->requirements; q++) {
        chance = 2000 + q;
        do {
            suite.requirement[q].rows = 0;
            grow(&suite.requirement[q], shape->occurrences, shape->rows + 1 - 2 * shape->occurrences);
        } while (!holds_mostly(&suite.requirement[q]));
    }
}

static void put(FILE *out, uint32_t number, unsigned bytes)
{
    for (unsigned b = 0; b < bytes; b++)
        putc((int)(number >> 8 * b & 255), out);
}

static FILE *open_in(const char *folder, const char *name)
{
    char path[4096];
    snprintf(path, sizeof path, "%s/%s", folder, name);
    FILE *out = fopen(path, "wb");
    if (out == NULL) {
        perror(path);
        exit(2);
    }
    return out;
}

static void put_contents(FILE *out)
{
    unsigned start = 4 + 4 * (suite.requirements + suite.runs);
    for (unsigned q = 0; q < suite.requirements; q++) {
        put(out, start, 2);
        put(out, suite.requirement[q].rows, 2);
        start += 3 * suite.requirement[q].rows;
    }
    for (unsigned j = 0; j < suite.runs; j++) {
        put(out, start, 2);
        put(out, suite.run[j].steps, 2);
        start += 4 * suite.run[j].steps;
    }
}

static void write_suite(const char *folder, const struct shape *shape)
{
    char name[64];
    draw_suite(shape);
    snprintf(name, sizeof name, "%s.suite", shape->name);
    FILE *out = open_in(folder, name);
    put(out, 1, 1);
    put(out, CONDITIONS, 1);
    put(out, suite.requirements, 1);
    put(out, suite.runs, 1);
    put_contents(out);
    for (unsigned q = 0; q < suite.requirements; q++)
        for (unsigned r = 0; r < suite.requirement[q].rows; r++) {
            struct row row = suite.requirement[q].row[r];
            put(out, row.kind | (uint32_t)row.first << 8 | (uint32_t)row.second << 16, 3);
        }
    for (unsigned j = 0; j < suite.runs; j++)
        for (unsigned i = 0; i < suite.run[j].steps; i++)
            put(out, suite.run[j].word[i], 4);
    fclose(out);
}

/* The largest table and run that `truth` takes: rows that may be named many times. */
static void write_truth(const char *folder)
{
    FILE *out = open_in(folder, "largest.truth");
    chance = 3000;
    put(out, CONDITIONS, 1);
    put(out, 3 * MOST_TABLE_ROWS, 2);
    for (unsigned r = 0; r < MOST_TABLE_ROWS; r++) {
        unsigned kind = r < CONDITIONS ? CONDITION : CONDITION + pick(KINDS - CONDITION);
        bool two = kind == AND || kind == OR || kind == UNTIL || kind == RELEASE || kind == WEAK_UNTIL;
        put(out, kind, 1);
        put(out, kind == CONDITION ? pick(CONDITIONS) : pick(r), 1);
        put(out, two ? pick(r) : 0, 1);
    }
    for (unsigned i = 0; i < MOST_STEPS; i++)
        put(out, draw_step(), 4);
    fclose(out);
}

int main(int count, char **word)
{
    if (count != 2) {
        fputs("usage: suites FOLDER\n", stderr);
        return 2;
    }
    for (size_t s = 0; s < sizeof shapes / sizeof shapes[0]; s++)
        write_suite(word[1], &shapes[s]);
    write_truth(word[1]);
    return 0;
}
