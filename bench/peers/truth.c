/* A plain column engine: the truth of one formula table over one run, a byte a row, from the last step to the first.
   Standard input: a byte, the number of conditions; two bytes, the number of table bytes; the table; the run's words to the end.
   Standard output: holds, fails, or refused with number and place, as document 01 has it for a lone table and run. */
#include "common.h"
#include <stdio.h>

enum { HEAD_BYTES = 3, ROW_BYTES = 3, WORD_BYTES = 4 };

static uint8_t input[MOST_BYTES + 1];
static struct row row[MOST_TABLE_ROWS];
static uint32_t word[MOST_STEPS];

/* What each row would have at the step past the last, so that the last step needs no test of its own. */
static void start(unsigned rows, uint8_t *here, uint8_t *held_back)
{
    for (unsigned r = 0; r < rows; r++) {
        uint8_t kind = row[r].kind;
        here[r] = kind == ALWAYS || kind == RELEASE || kind == GLOBALLY || kind == WEAK_UNTIL;
        held_back[r] = kind == WEAK_NEXT;
    }
}

/* One column in place: at its turn here[r] is still the row's own truth at the step after. Only a next row asks for another row's truth
   there; it holds that back itself. */
static void judge_step(unsigned rows, uint32_t step, uint8_t *here, uint8_t *held_back)
{
    for (unsigned r = 0; r < rows; r++) {
        unsigned first = row[r].first, second = row[r].second;
        switch (row[r].kind) {
        case CONDITION: here[r] = step >> first & 1; break;
        case NOT: here[r] = here[first] ^ 1; break;
        case AND: here[r] = here[first] & here[second]; break;
        case OR: here[r] = here[first] | here[second]; break;
        case STRONG_NEXT: case WEAK_NEXT: here[r] = held_back[r]; held_back[r] = here[first]; break;
        case UNTIL: case WEAK_UNTIL: here[r] = here[second] | (here[first] & here[r]); break;
        case RELEASE: here[r] = here[second] & (here[first] | here[r]); break;
        case FINALLY: here[r] |= here[first]; break;
        case GLOBALLY: here[r] &= here[first]; break;
        default: break; /* a constant stays as it started */
        }
    }
}

static bool holds(unsigned rows, unsigned steps)
{
    uint8_t here[MOST_TABLE_ROWS], held_back[MOST_TABLE_ROWS];
    start(rows, here, held_back);
    for (unsigned i = steps; i-- > 0;)
        judge_step(rows, word[i], here, held_back);
    return here[rows - 1];
}

/* Refusals 3, 7 and 8. */
static struct refusal take_table(unsigned conditions, const uint8_t *bytes, size_t length)
{
    if (conditions < 1 || conditions > MOST_CONDITIONS)
        return (struct refusal){3, 0};
    if (length % ROW_BYTES != 0 || length < ROW_BYTES || length > ROW_BYTES * MOST_TABLE_ROWS)
        return (struct refusal){7, 0};
    for (unsigned r = 0; r < length / ROW_BYTES; r++, bytes += ROW_BYTES) {
        row[r] = (struct row){bytes[0], bytes[1], bytes[2]};
        if (!row_is_sound(row[r], r, conditions))
            return (struct refusal){8, r};
    }
    return (struct refusal){0, 0};
}

/* Refusals 10 and 11. */
static struct refusal take_run(unsigned conditions, const uint8_t *bytes, size_t steps)
{
    if (steps < 1 || steps > MOST_STEPS)
        return (struct refusal){10, 0};
    for (unsigned i = 0; i < steps; i++, bytes += WORD_BYTES) {
        word[i] = little_endian(bytes, WORD_BYTES);
        if (word[i] & stray_bits(conditions))
            return (struct refusal){11, i};
    }
    return (struct refusal){0, 0};
}

int main(void)
{
    size_t length = read_input(input), table = length < HEAD_BYTES ? 0 : little_endian(input + 1, 2);
    if (length < HEAD_BYTES + table || (length - HEAD_BYTES - table) % WORD_BYTES != 0) {
        fputs("truth: the input is no table and run\n", stderr);
        return 2;
    }
    size_t steps = (length - HEAD_BYTES - table) / WORD_BYTES;
    struct refusal refusal = take_table(input[0], input + HEAD_BYTES, table);
    if (refusal.number == 0)
        refusal = take_run(input[0], input + HEAD_BYTES + table, steps);
    if (refusal.number != 0)
        print_refusal(refusal);
    else
        fputs(holds((unsigned)(table / ROW_BYTES), (unsigned)steps) ? "holds\n" : "fails\n", stdout);
    return 0;
}
