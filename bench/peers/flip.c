/* Peer (b): the requirement judged once more for each pair, with the occurrence flipped at every step. */
#include "engine.h"

/* A run that the requirement fails covers nothing, so no flip of it is asked. */
static void judge(const struct suite *suite, const struct requirement *requirement, struct marks *marks)
{
    static struct plan plan;
    uint64_t kept[MOST_ROWS];
    for (unsigned r = 0; r < requirement->rows; r++)
        kept[r] = UINT64_MAX;
    make_plan(&plan, requirement->row, requirement->rows, kept);
    for (unsigned j = 0; j < suite->runs; j++)
        marks->held |= (judge_run(&plan, &suite->run[j]) & 1) << j;
    for (unsigned o = 0; o < requirement->occurrences; o++) {
        kept[requirement->occurrence[o]] = 0;
        make_plan(&plan, requirement->row, requirement->rows, kept);
        kept[requirement->occurrence[o]] = UINT64_MAX;
        for (unsigned j = 0; j < suite->runs; j++)
            if (marks->held >> j & 1)
                marks->covered[o] |= (~judge_run(&plan, &suite->run[j]) & 1) << j;
    }
}

int main(void)
{
    return sheet_program(judge);
}
