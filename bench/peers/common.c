/* Reads and checks a suite file as document 01 has it, and prints the bench sheet; the judging itself is lent. */
#include "common.h"
#include <stdio.h>
#include <string.h>

enum { HEAD_BYTES = 4, ENTRY_BYTES = 4, ROW_BYTES = 3, WORD_BYTES = 4, MOST_DIGITS = 10 };

struct file {
    size_t length;
    uint8_t byte[MOST_BYTES + 1];
};

static struct file file;
static struct suite suite;
static uint32_t words[MOST_BYTES / WORD_BYTES];
static struct marks marks[MOST_REQUIREMENTS];

/* The longest sheet: every pair covered, with two digits a number, is far below this. */
static char text[MOST_REQUIREMENTS * (MOST_OCCURRENCES * MOST_RUNS + 1) * 24];
static char *text_end = text;

static const struct refusal accepted = {0, 0};

size_t read_input(uint8_t bytes[MOST_BYTES + 1])
{
    return fread(bytes, 1, MOST_BYTES + 1, stdin);
}

uint32_t little_endian(const uint8_t *bytes, unsigned count)
{
    uint32_t number = 0;
    while (count-- > 0)
        number = number << 8 | bytes[count];
    return number;
}

bool row_is_sound(struct row row, unsigned number, unsigned conditions)
{
    switch (row.kind) {
    case NEVER: case ALWAYS:
        return row.first == 0 && row.second == 0;
    case CONDITION:
        return row.first < conditions && row.second == 0;
    case NOT: case STRONG_NEXT: case WEAK_NEXT: case FINALLY: case GLOBALLY:
        return row.first < number && row.second == 0;
    case AND: case OR: case UNTIL: case RELEASE: case WEAK_UNTIL:
        return row.first < number && row.second < number;
    default:
        return false;
    }
}

static bool names_two(uint8_t kind)
{
    return kind == AND || kind == OR || kind == UNTIL || kind == RELEASE || kind == WEAK_UNTIL;
}

uint32_t stray_bits(unsigned conditions)
{
    return conditions == MOST_CONDITIONS ? 0 : UINT32_MAX << conditions;
}

unsigned parent_of(const struct requirement *requirement, unsigned r)
{
    for (unsigned above = r + 1; above < requirement->rows; above++) {
        struct row row = requirement->row[above];
        if (row.kind > CONDITION && (row.first == r || (names_two(row.kind) && row.second == r)))
            return above;
    }
    return r;
}

static bool within(unsigned count, unsigned most)
{
    return count >= 1 && count <= most;
}

/* Refusals 1 to 4. */
static struct refusal check_head(void)
{
    const uint8_t *head = file.byte;
    if (file.length < LEAST_BYTES || file.length > MOST_BYTES)
        return (struct refusal){1, 0};
    if (head[0] != 1)
        return (struct refusal){2, 0};
    if (!within(head[1], MOST_CONDITIONS) || !within(head[2], MOST_REQUIREMENTS) || !within(head[3], MOST_RUNS))
        return (struct refusal){3, 0};
    if (file.length < HEAD_BYTES + (size_t)ENTRY_BYTES * (head[2] + head[3]))
        return (struct refusal){4, 0};
    return accepted;
}

/* Refusals 5 and 6. The end of a body may pass 65,535, so that no two-byte start can meet it. */
static struct refusal check_contents(void)
{
    unsigned requirements = file.byte[2], entries = requirements + file.byte[3];
    size_t end = HEAD_BYTES + (size_t)ENTRY_BYTES * entries;
    for (unsigned e = 0; e < entries; e++) {
        size_t place = HEAD_BYTES + (size_t)ENTRY_BYTES * e;
        unsigned start = little_endian(file.byte + place, 2), count = little_endian(file.byte + place + 2, 2);
        bool of_rows = e < requirements;
        if (start != end || !within(count, of_rows ? MOST_ROWS : MOST_STEPS))
            return (struct refusal){5, place};
        end += (size_t)count * (of_rows ? ROW_BYTES : WORD_BYTES);
    }
    return file.length == end ? accepted : (struct refusal){6, 0};
}

/* Refusal 9: the lowest row that is not named once, the last apart, or is "not" over another kind than a condition. */
static struct refusal check_names(const struct requirement *requirement, size_t start)
{
    uint8_t named[MOST_TABLE_ROWS] = {0};
    for (unsigned r = 0; r < requirement->rows; r++) {
        struct row row = requirement->row[r];
        if (row.kind > CONDITION)
            named[row.first]++;
        if (names_two(row.kind))
            named[row.second]++;
    }
    for (unsigned r = 0; r < requirement->rows; r++) {
        struct row row = requirement->row[r];
        bool loose = r + 1 < requirement->rows && named[r] != 1;
        if (loose || (row.kind == NOT && requirement->row[row.first].kind != CONDITION))
            return (struct refusal){9, start + (size_t)ROW_BYTES * r};
    }
    return accepted;
}

/* Takes a requirement in from its body; refusals 8 and 9. */
static struct refusal take_requirement(struct requirement *requirement, size_t start, unsigned rows)
{
    requirement->rows = rows;
    requirement->occurrences = 0;
    for (unsigned r = 0; r < rows; r++) {
        const uint8_t *body = file.byte + start + (size_t)ROW_BYTES * r;
        requirement->row[r] = (struct row){body[0], body[1], body[2]};
        if (!row_is_sound(requirement->row[r], r, suite.conditions))
            return (struct refusal){8, start + (size_t)ROW_BYTES * r};
    }
    struct refusal refusal = check_names(requirement, start);
    if (refusal.number != 0)
        return refusal;
    for (unsigned r = 0; r < rows; r++)
        if (requirement->row[r].kind == CONDITION)
            requirement->occurrence[requirement->occurrences++] = (uint8_t)r;
    return accepted;
}

/* Takes a run in from its body, to words of its own, since a body may begin at any byte; refusal 11. */
static struct refusal take_run(struct run *run, uint32_t *word, size_t start, unsigned steps)
{
    uint32_t stray = stray_bits(suite.conditions);
    *run = (struct run){steps, word};
    for (unsigned i = 0; i < steps; i++) {
        word[i] = little_endian(file.byte + start + (size_t)WORD_BYTES * i, WORD_BYTES);
        if (word[i] & stray)
            return (struct refusal){11, start + (size_t)WORD_BYTES * i};
    }
    return accepted;
}

/* Takes the whole suite in from a file that passed 1 to 6. */
static struct refusal take_bodies(void)
{
    uint32_t *word = words;
    suite.conditions = file.byte[1];
    suite.requirements = file.byte[2];
    suite.runs = file.byte[3];
    for (unsigned e = 0; e < suite.requirements + suite.runs; e++) {
        const uint8_t *entry = file.byte + HEAD_BYTES + (size_t)ENTRY_BYTES * e;
        unsigned start = little_endian(entry, 2), count = little_endian(entry + 2, 2);
        struct refusal refusal;
        if (e < suite.requirements) {
            refusal = take_requirement(&suite.requirement[e], start, count);
        } else {
            refusal = take_run(&suite.run[e - suite.requirements], word, start, count);
            word += count;
        }
        if (refusal.number != 0)
            return refusal;
    }
    return accepted;
}

static struct refusal take_suite(void)
{
    struct refusal refusal = check_head();
    if (refusal.number == 0)
        refusal = check_contents();
    if (refusal.number == 0)
        refusal = take_bodies();
    return refusal;
}

static void put_word(const char *word)
{
    size_t length = strlen(word);
    memcpy(text_end, word, length);
    text_end += length;
}

/* A space and a decimal number. */
static void put_number(size_t number)
{
    char digits[MOST_DIGITS];
    unsigned count = 0;
    do
        digits[count++] = (char)('0' + number % 10);
    while ((number /= 10) != 0);
    *text_end++ = ' ';
    while (count > 0)
        *text_end++ = digits[--count];
}

static void put_requirement(unsigned q)
{
    const struct requirement *requirement = &suite.requirement[q];
    put_word("req");
    put_number(q);
    put_word(" occ");
    put_number(requirement->occurrences);
    put_word(" held");
    put_number((size_t)__builtin_popcountll(marks[q].held));
    put_word("\n");
    for (unsigned o = 0; o < requirement->occurrences; o++)
        for (uint64_t left = marks[q].covered[o]; left != 0; left &= left - 1) {
            put_word("cov");
            put_number(q);
            put_number(o);
            put_number((size_t)__builtin_ctzll(left));
            put_word("\n");
        }
}

static void put_conditions(uint32_t used, uint32_t covered)
{
    for (unsigned c = 0; c < suite.conditions; c++) {
        put_word("cond");
        put_number(c);
        put_word(covered >> c & 1 ? " yes\n" : used >> c & 1 ? " no\n" : " unused\n");
    }
}

static void put_sheet(void)
{
    uint32_t used = 0, covered = 0;
    size_t mattered = 0, all = 0;
    put_word("suite");
    put_number(suite.requirements);
    put_number(suite.runs);
    put_word("\n");
    for (unsigned q = 0; q < suite.requirements; q++) {
        const struct requirement *requirement = &suite.requirement[q];
        put_requirement(q);
        for (unsigned o = 0; o < requirement->occurrences; o++) {
            uint32_t condition = (uint32_t)1 << requirement->row[requirement->occurrence[o]].first;
            used |= condition;
            if (marks[q].covered[o] != 0) {
                covered |= condition;
                mattered++;
            }
        }
        all += requirement->occurrences;
    }
    put_conditions(used, covered);
    put_word("total");
    put_number(mattered);
    put_number(all);
    put_word("\n");
}

static void write_text(void)
{
    fwrite(text, 1, (size_t)(text_end - text), stdout);
    text_end = text;
}

void print_refusal(struct refusal refusal)
{
    put_word("refused");
    put_number(refusal.number);
    put_number(refusal.place);
    put_word("\n");
    write_text();
}

int sheet_program(judge_way *judge)
{
    file.length = read_input(file.byte);
    struct refusal refusal = take_suite();
    if (refusal.number != 0) {
        print_refusal(refusal);
        return 0;
    }
    for (unsigned q = 0; q < suite.requirements; q++)
        judge(&suite, &suite.requirement[q], &marks[q]);
    put_sheet();
    write_text();
    return 0;
}
