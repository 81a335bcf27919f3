/* The C interface on document 01's 52-byte suite (its sheet, its covered pairs, a witness), an encoder log made into a run, and refusals
 * with their places. */
#include <stdio.h>
#include "occov.h"

#define BYTES(a) ((occov_byte_count){sizeof(a)})
#define STEPS(a) ((occov_step_count){sizeof(a) / sizeof(a)[0]})

static const uint8_t suite[52] = {
    1, 2, 1, 2, 0x10, 0, 4, 0, 0x1C, 0, 3, 0, 0x28, 0, 3, 0, /* 2 conditions, 1 requirement, 2 runs; where each body starts */
    2, 0, 0, 2, 1, 0, 5, 0, 1, 10, 2, 0,                     /* finally (0 or 1) */
    0, 0, 0, 0, 1, 0, 0, 0, 2, 0, 0, 0,                      /* run 0: {} {0} {1} */
    0, 0, 0, 0, 1, 0, 0, 0, 0, 0, 0, 0,                      /* run 1: {} {0} {} */
};
static const uint8_t requirement[12] = {2, 0, 0, 2, 1, 0, 5, 0, 1, 10, 2, 0};
static const uint32_t runs[2][3] = {{0, 1, 2}, {0, 1, 0}};
static const occov_condition_count two = {2};
/* encoder counts 65000, 65300, 64, 364, 364, 65400, 64700; the limits too are encoder counts */
static const uint8_t lift[14] = {0xE8, 0xFD, 0x14, 0xFF, 0x40, 0, 0x6C, 1, 0x6C, 1, 0x78, 0xFF, 0xBC, 0xFC};
static const occov_limit limits[2] = {{300}, {800}};
static uint8_t text[OCCOV_SHEET_BYTES], out[OCCOV_WITNESS_BYTES];
static uint32_t words[OCCOV_TAKEN_STEPS];

static void say(const char *what, occov_answer a) {
    static const char *const units[] = {"no place", "byte", "row", "step"};
    printf("%s: ", what);
    switch (a.kind.code) {
    case OCCOV_HOLDS: printf("holds\n"); break;
    case OCCOV_FAILS: printf("fails\n"); break;
    case OCCOV_UNCOVERED: printf("uncovered\n"); break;
    case OCCOV_REFUSED:
        if (a.unit.code == OCCOV_NO_PLACE) printf("refused by %zu\n", a.refusal.number);
        else printf("refused by %zu at %s %zu\n", a.refusal.number, units[a.unit.code], a.place.number);
        break;
    case OCCOV_TAKEN:
        printf("taken in, %zu steps:", a.steps.steps);
        for (size_t i = 0; i < a.steps.steps; i++) printf(" %u", words[i]);
        printf("\n");
        break;
    default:
        printf("%s, %zu bytes:", a.kind.code == OCCOV_COVERED ? "covered" : "written", a.written.bytes);
        for (size_t i = 0; i < a.written.bytes; i++) printf(" %d", out[i]);
        printf("\n");
    }
}

int main(void) {
    occov_answer sheet = occov_sheet(suite, BYTES(suite), text, BYTES(text));
    if (sheet.kind.code != OCCOV_WRITTEN) return 1;
    fwrite(text, 1, sheet.written.bytes, stdout);
    say("pairs of requirement 0", occov_list(suite, BYTES(suite), (occov_requirement_number){0}, out, BYTES(out)));
    say("pairs of requirement 1", occov_list(suite, BYTES(suite), (occov_requirement_number){1}, out, BYTES(out)));
    for (size_t j = 0; j < 2; j++) {
        printf("run %zu ", j);
        say("truth", occov_truth(requirement, BYTES(requirement), runs[j], STEPS(runs[j]), two));
        for (size_t o = 0; o < 2; o++) {
            printf("run %zu occurrence %zu ", j, o);
            say("witness", occov_witness(requirement, BYTES(requirement), runs[j], STEPS(runs[j]), two,
                                         (occov_occurrence_number){o}, out, BYTES(out)));
        }
    }
    say("trap", occov_trap(requirement, BYTES(requirement), two, (occov_occurrence_number){0}, out, BYTES(out)));

    occov_answer taken = occov_take_in(lift, BYTES(lift), limits, two, words, STEPS(words));
    say("log of the lift", taken);
    say("truth of its run", occov_truth(requirement, BYTES(requirement), words, taken.steps, two));

    uint8_t wrong[sizeof suite];
    for (size_t i = 0; i < sizeof suite; i++) wrong[i] = suite[i];
    wrong[47] = 128; /* the highest bit of step 1 of run 1, in a suite of two conditions */
    say("file with a stray bit", occov_sheet(wrong, BYTES(wrong), text, BYTES(text)));
    say("run with a stray bit", occov_truth(requirement, BYTES(requirement), (uint32_t[]){0, 4, 0}, (occov_step_count){3}, two));
    say("row 1 of an unknown kind", occov_truth((uint8_t[]){2, 0, 0, 13, 0, 0}, (occov_byte_count){6}, runs[0], STEPS(runs[0]), two));
    say("file cut short", occov_sheet(suite, (occov_byte_count){51}, text, BYTES(text)));
    say("no room for the sheet", occov_sheet(suite, BYTES(suite), out, (occov_byte_count){10}));
    say("log of half a turn", occov_take_in((uint8_t[]){0, 0, 0, 128}, (occov_byte_count){4}, limits, two, words, STEPS(words)));
    return 0;
}
