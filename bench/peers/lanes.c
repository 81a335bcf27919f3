/* Peer (c): one pass over each run judges the requirement as recorded and all its flips at once, a lane each. */
#include "engine.h"

/* Lane o is the requirement with occurrence o flipped; the lane above them is the run as recorded. */
enum { RECORDED = MOST_OCCURRENCES };

static void judge(const struct suite *suite, const struct requirement *requirement, struct marks *marks)
{
    static struct plan plan;
    uint64_t kept[MOST_ROWS];
    for (unsigned o = 0; o < requirement->occurrences; o++)
        kept[requirement->occurrence[o]] = ~((uint64_t)1 << o);
    make_plan(&plan, requirement->row, requirement->rows, kept);
    for (unsigned j = 0; j < suite->runs; j++) {
        uint64_t lanes = judge_run(&plan, &suite->run[j]);
        uint64_t held = lanes >> RECORDED & 1;
        marks->held |= held << j;
        for (unsigned o = 0; o < requirement->occurrences; o++)
            marks->covered[o] |= (held & ~(lanes >> o)) << j;
    }
}

int main(void)
{
    return sheet_program(judge);
}
