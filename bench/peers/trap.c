/* Peer (a), the published way: the trap table of each occurrence, judged over each run. */
#include "engine.h"

struct table {
    unsigned rows;
    struct row row[MOST_TABLE_ROWS];
};

static uint8_t add(struct table *table, enum kind kind, uint8_t first, uint8_t second)
{
    table->row[table->rows] = (struct row){(uint8_t)kind, first, second};
    return (uint8_t)table->rows++;
}

/* (not c) or t. */
static uint8_t add_unless(struct table *table, uint8_t c, uint8_t t)
{
    return add(table, OR, add(table, NOT, c, 0), t);
}

static uint8_t add_until(struct table *table, uint8_t s, bool left, uint8_t c, uint8_t o, uint8_t t)
{
    uint8_t not_o = add(table, NOT, o, 0);
    if (left)
        return add(table, AND, s, add(table, UNTIL, not_o, add(table, AND, t, not_o)));
    return add(table, AND, s, add(table, RELEASE, not_o, add_unless(table, c, t)));
}

static uint8_t add_release(struct table *table, uint8_t s, bool left, uint8_t c, uint8_t o, uint8_t t)
{
    if (!left)
        return add(table, AND, s, add(table, UNTIL, add(table, NOT, o, 0), t));
    uint8_t unless = add_unless(table, c, t);
    return add(table, AND, s, add(table, UNTIL, unless, add(table, NOT, o, 0)));
}

static uint8_t add_weak_until(struct table *table, uint8_t s, bool left, uint8_t c, uint8_t o, uint8_t t)
{
    if (left) {
        uint8_t not_o = add(table, NOT, o, 0);
        return add(table, AND, s, add(table, UNTIL, not_o, add(table, AND, not_o, t)));
    }
    uint8_t unless = add_unless(table, c, t);
    uint8_t both = add(table, AND, add(table, NOT, o, 0), unless);
    return add(table, AND, s, add(table, UNTIL, unless, both));
}

/* The trap of row s, from t, the trap of its child c: document 01's lines. */
static uint8_t add_trap(struct table *table, uint8_t s, uint8_t c, uint8_t t)
{
    struct row row = table->row[s];
    bool left = row.first == c;
    uint8_t o = left ? row.second : row.first;
    switch (row.kind) {
    case AND: return add(table, AND, t, o);
    case OR: return add(table, AND, t, add(table, NOT, o, 0));
    case STRONG_NEXT: case WEAK_NEXT: return add(table, STRONG_NEXT, t, 0);
    case UNTIL: return add_until(table, s, left, c, o, t);
    case RELEASE: return add_release(table, s, left, c, o, t);
    case FINALLY: return add(table, AND, s, add(table, GLOBALLY, add_unless(table, c, t), 0));
    case GLOBALLY: return add(table, AND, s, add(table, FINALLY, t, 0));
    case WEAK_UNTIL: return add_weak_until(table, s, left, c, o, t);
    default: return t; /* "not" over the occurrence: the way starts there */
    }
}

static void build_trap(struct table *table, const struct requirement *requirement, const uint8_t *parent, uint8_t at)
{
    table->rows = requirement->rows;
    for (unsigned r = 0; r < requirement->rows; r++)
        table->row[r] = requirement->row[r];
    uint8_t c = at, t = at;
    while (c + 1u < requirement->rows) {
        uint8_t s = parent[c];
        t = table->row[s].kind == NOT ? s : add_trap(table, s, c, t);
        c = s;
    }
}

/* A run that the requirement fails covers nothing, so its traps are not asked. */
static void judge(const struct suite *suite, const struct requirement *requirement, struct marks *marks)
{
    static struct plan plan;
    uint64_t kept[MOST_TABLE_ROWS];
    uint8_t parent[MOST_ROWS];
    for (unsigned r = 0; r < requirement->rows; r++) {
        kept[r] = UINT64_MAX;
        parent[r] = (uint8_t)parent_of(requirement, r);
    }
    make_plan(&plan, requirement->row, requirement->rows, kept);
    for (unsigned j = 0; j < suite->runs; j++)
        marks->held |= (judge_run(&plan, &suite->run[j]) & 1) << j;
    for (unsigned o = 0; o < requirement->occurrences; o++) {
        struct table table;
        build_trap(&table, requirement, parent, requirement->occurrence[o]);
        make_plan(&plan, table.row, table.rows, kept);
        for (unsigned j = 0; j < suite->runs; j++)
            if (marks->held >> j & 1)
                marks->covered[o] |= (judge_run(&plan, &suite->run[j]) & 1) << j;
    }
}

int main(void)
{
    return sheet_program(judge);
}
