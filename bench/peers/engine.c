/* The engine that the three ways share. A table is made once into literals and gates, in which no step looks at a row's kind again. */
#include "engine.h"

/* Each gate ends by judging the next one, which compiles to a jump: no loop and no choice between kinds is left. */
#define THEN_NEXT do { gate = gate->next; gate->judge(gate); } while (0)

static void judge_not(struct gate *gate)
{
    gate->truth = ~*gate->first;
    THEN_NEXT;
}

static void judge_and(struct gate *gate)
{
    gate->truth = *gate->first & *gate->second;
    THEN_NEXT;
}

static void judge_or(struct gate *gate)
{
    gate->truth = *gate->first | *gate->second;
    THEN_NEXT;
}

/* Only a next row asks for another row's truth at the step after; it holds that back itself. */
static void judge_next(struct gate *gate)
{
    gate->truth = gate->held_back;
    gate->held_back = *gate->first;
    THEN_NEXT;
}

static void judge_until(struct gate *gate)
{
    gate->truth = *gate->second | (*gate->first & gate->truth);
    THEN_NEXT;
}

static void judge_release(struct gate *gate)
{
    gate->truth = *gate->second & (*gate->first | gate->truth);
    THEN_NEXT;
}

static void judge_finally(struct gate *gate)
{
    gate->truth |= *gate->first;
    THEN_NEXT;
}

static void judge_globally(struct gate *gate)
{
    gate->truth &= *gate->first;
    THEN_NEXT;
}

static void judge_no_more(struct gate *gate)
{
    (void)gate;
}

/* Of each kind, its judge and what it would have at the step past the last, so that the last step needs no test of its own. */
static const struct {
    void (*judge)(struct gate *);
    uint64_t past_end;
} gate_of[KINDS] = {
    [NOT] = {judge_not, 0}, [AND] = {judge_and, 0}, [OR] = {judge_or, 0},
    [STRONG_NEXT] = {judge_next, 0}, [WEAK_NEXT] = {judge_next, UINT64_MAX},
    [UNTIL] = {judge_until, 0}, [WEAK_UNTIL] = {judge_until, UINT64_MAX}, [RELEASE] = {judge_release, UINT64_MAX},
    [FINALLY] = {judge_finally, 0}, [GLOBALLY] = {judge_globally, UINT64_MAX},
};

static const uint64_t *add_gate(struct plan *plan, struct row row, const uint64_t *const *truth)
{
    struct gate *gate = &plan->gate[plan->gates++];
    gate->judge = gate_of[row.kind].judge;
    gate->next = gate + 1;
    gate->past_end = gate_of[row.kind].past_end;
    gate->first = truth[row.first];
    gate->second = truth[row.second];
    return &gate->truth;
}

static const uint64_t *add_literal(struct plan *plan, unsigned condition, bool negated, uint64_t kept)
{
    struct literal_block *block = &plan->block[plan->literals / LITERALS_A_BLOCK];
    unsigned at = plan->literals++ % LITERALS_A_BLOCK;
    for (unsigned h = 2 * at; h < 2 * at + 2; h++) {
        block->bit[h] = (uint32_t)1 << condition;
        block->wanted[h] = negated ? 0 : (uint32_t)1 << condition;
        block->kept[h] = (uint32_t)(h % 2 == 0 ? kept : kept >> 32);
    }
    return &block->truth.lanes[at];
}

/* Which rows another row than "not" names; the last row counts as named. A condition that is not among them needs no literal. */
static void find_named(bool *named, const struct row *row, unsigned rows)
{
    for (unsigned r = 0; r < rows; r++) {
        named[r] = r + 1 == rows;
        if (row[r].kind > NOT)
            named[row[r].first] = named[row[r].second] = true;
    }
}

void make_plan(struct plan *plan, const struct row *row, unsigned rows, const uint64_t *kept)
{
    const uint64_t *truth[MOST_TABLE_ROWS] = {NULL};
    bool named[MOST_TABLE_ROWS];
    find_named(named, row, rows);
    plan->literals = plan->gates = 0;
    plan->constant[0] = 0;
    plan->constant[1] = UINT64_MAX;
    for (unsigned r = 0; r < rows; r++) {
        uint8_t first = row[r].first;
        if (row[r].kind <= ALWAYS)
            truth[r] = &plan->constant[row[r].kind];
        else if (row[r].kind == CONDITION && named[r])
            truth[r] = add_literal(plan, first, false, kept[r]);
        else if (row[r].kind == NOT && row[first].kind == CONDITION)
            truth[r] = add_literal(plan, row[first].first, true, kept[first]);
        else if (row[r].kind > CONDITION)
            truth[r] = add_gate(plan, row[r], truth);
    }
    plan->gate[plan->gates].judge = judge_no_more;
    plan->verdict = truth[rows - 1];
}

/* The literals at a step. Both halves of a literal's lanes are made alike, so that the compiler can make four halves at once. */
static inline void read_step(struct literal_block *block, unsigned blocks, uint32_t step)
{
    for (unsigned b = 0; b < blocks; b++)
        for (unsigned h = 0; h < HALVES_A_BLOCK; h++)
            block[b].truth.half[h] = -(uint32_t)((step & block[b].bit[h]) == block[b].wanted[h]) & block[b].kept[h];
}

uint64_t judge_run(struct plan *plan, const struct run *run)
{
    const uint32_t *word = run->word;
    unsigned blocks = (plan->literals + LITERALS_A_BLOCK - 1) / LITERALS_A_BLOCK;
    for (unsigned g = 0; g < plan->gates; g++)
        plan->gate[g].truth = plan->gate[g].held_back = plan->gate[g].past_end;
    for (unsigned i = run->steps; i-- > 0;) {
        read_step(plan->block, blocks, word[i]);
        plan->gate->judge(plan->gate);
    }
    return *plan->verdict;
}
