/* Occurrence coverage over bench runs, for C: the archive libexports.a, which `bin/build-proved exports` makes. `occov`: occurrence coverage.
 *
 * Each function is proved to answer, and to leave in the lent bytes or words, what its operation's definition says (docs/PROMISES.md).
 * The proof holds for a caller that guarantees what follows. Nothing checks a C caller:
 *   - each pointer is not null, not even with a count of 0, and points to as many bytes (or 32-bit words, or limits) as its count says;
 *   - a pointer to words or limits is aligned to 4 bytes;
 *   - the lent bytes or words `out` share no byte with anything else that is passed, and nobody else reads or writes them during the call;
 *     nobody writes what is only read. Calls in several threads at once are fine, each with its own `out`. `out` may hold anything;
 *   - the stack has room: 512 KiB for occov_sheet, 64 KiB for the others (measured: 450,760 bytes and at most 34,184);
 *   - the program is for x86-64 Linux.
 * A caller guarantees nothing about the figures: every number is taken, and a wrong one is refused by its number in document 01 (17, of a
 * log, in document 02).
 *
 * A count or a number crosses only in a struct whose name says what it counts: (occov_step_count){3} is three steps and nothing else.
 * Little-endian bytes of a suite file or a log are passed as they stand there. All numbers that say which one is meant count from 0. */
#ifndef OCCOV_H
#define OCCOV_H
#if !defined(__x86_64__) || !defined(__linux__) || defined(__ILP32__)
#error "libexports.a is for x86-64 Linux"
#endif
#include <stddef.h>
#include <stdint.h>
#ifdef __cplusplus
extern "C" {
#endif

/* How many there are. */
typedef struct { size_t conditions; } occov_condition_count; /* conditions of the suite, or limits, one a condition; any; 1 to 32
                                                                are accepted, else refusal 3 */
typedef struct { size_t bytes; } occov_byte_count;           /* bytes that a pointer leads to, or bytes written; range at each use */
typedef struct { size_t steps; } occov_step_count;           /* steps of a run, one 32-bit word each; range at each use */

/* Which one is meant, from 0. */
typedef struct { size_t occurrence; } occov_occurrence_number;   /* which condition row of the requirement, ascending; any; 0 to 15
                                                                    occur, one that the requirement does not have is refusal 12 */
typedef struct { size_t requirement; } occov_requirement_number; /* which requirement of the suite; any; 0 to 15 occur, one that the
                                                                    suite does not have is refusal 12 */

/* What a condition of a log reads: it holds at a step where the lift has gone at least so far since step 0, negative for back. Encoder
 * counts, never millimetres or inches; any. */
typedef struct { int32_t encoder_counts; } occov_limit;

/* Of an answer. */
typedef struct { uint32_t code; } occov_answer_kind;      /* a code, one of OCCOV_REFUSED .. below: 0 to 6 */
typedef struct { uint32_t code; } occov_place_unit;       /* a code, one of OCCOV_NO_PLACE .. below: 0 to 3 */
typedef struct { size_t number; } occov_refusal_number;   /* which line of document 01's table of refusals, 1 to 14, or 17, of a log;
                                                             0 for no refusal */
typedef struct { size_t number; } occov_printed_place;    /* which byte, row or step, from 0, as `unit` says: 0 to 65,534, 0 to 223,
                                                             0 to 4,095; 0 where there is no place */

enum { /* kinds of an answer */
    OCCOV_REFUSED = 0,   /* `refusal`, `unit` and `place` say which and where; no lent byte or word has changed */
    OCCOV_HOLDS = 1,     /* the formula holds of the run */
    OCCOV_FAILS = 2,     /* it does not */
    OCCOV_WRITTEN = 3,   /* `written` bytes stand at the front of `out` */
    OCCOV_COVERED = 4,   /* the run covers the occurrence; `written` bytes, the witness, stand at the front of `out` */
    OCCOV_UNCOVERED = 5, /* it does not; no lent byte has changed */
    OCCOV_TAKEN = 6      /* a run was made of the log; `steps` words, one a step, stand at the front of `out` */
};

enum { /* what the place of a refusal is a number of */
    OCCOV_NO_PLACE = 0,
    OCCOV_BYTE = 1, /* bytes of the suite file before the entry, row or word meant: refusals 5, 8, 9 and 11 of a file */
    OCCOV_ROW = 2,  /* a row of the lone table: refusals 8 and 9 of occov_truth, occov_trap and occov_witness */
    OCCOV_STEP = 3  /* a step of the lone run: refusal 11 of occov_truth and occov_witness; a step of the log, the later of two whose
                       counts differ by exactly 32,768: refusal 17 of occov_take_in */
};

typedef struct {
    occov_answer_kind kind;
    occov_place_unit unit;        /* OCCOV_NO_PLACE unless refused */
    occov_refusal_number refusal; /* 0 unless refused */
    occov_printed_place place;    /* 0 unless refused, and where a refusal has no place */
    occov_byte_count written;     /* bytes written from the front of `out`, the bytes after them unchanged; 0 unless written or covered */
    occov_step_count steps;       /* steps written, a word each, at the front of `out`, the words after them unchanged; 0 unless taken */
} occov_answer;

/* The most bytes, or steps, that each function writes: an `out` of that many is never too short. */
#define OCCOV_TRAP_BYTES 672     /* 224 rows of 3 bytes */
#define OCCOV_WITNESS_BYTES 4096 /* 4,096 steps, a byte each */
#define OCCOV_LIST_BYTES 2048    /* 16 occurrences, 64 runs, 2 bytes a pair */
#define OCCOV_SHEET_BYTES 426842
#define OCCOV_TAKEN_STEPS 4096   /* a word each */

/* Whether a lone formula table holds of a lone run: OCCOV_HOLDS, OCCOV_FAILS, or refused by 3, 7, 8, 10 or 11.
 *   table, table_bytes   rows of 3 bytes (kind, first, second) and how many bytes; any; 3 to 672, a multiple of 3, are accepted, else 7
 *   run, run_steps       a word a step, bit c is condition c, and how many steps; any; 1 to 4,096 are accepted, else 10
 *   conditions           conditions of the suite */
occov_answer occov_truth(const uint8_t *table, occov_byte_count table_bytes, const uint32_t *run, occov_step_count run_steps,
                         occov_condition_count conditions);

/* The trap table of an occurrence of a lone requirement: OCCOV_WRITTEN, 3 bytes a row, 3 to 672 in all, or refused by 3, 7, 8, 9, 12, 13
 * or 14.
 *   requirement, requirement_bytes   rows of 3 bytes and how many bytes; any; 3 to 96, a multiple of 3, are accepted, else 7
 *   conditions, occurrence           conditions of the suite, and which of the requirement's condition rows
 *   out, out_bytes                   lent bytes and how many; any; fewer than the trap table has are refused by 14 */
occov_answer occov_trap(const uint8_t *requirement, occov_byte_count requirement_bytes, occov_condition_count conditions,
                        occov_occurrence_number occurrence, uint8_t *out, occov_byte_count out_bytes);

/* Whether a lone run covers an occurrence of a lone requirement: OCCOV_COVERED with a witness, a byte a step, 0 or 1 each, 1 to 4,096 in
 * all; OCCOV_UNCOVERED; or refused by 3, 7, 8, 9, 10, 11, 12 or 14.
 *   requirement .. occurrence   as above
 *   run, run_steps              as for occov_truth
 *   out, out_bytes              lent bytes and how many; any; for a covered pair fewer than the run has steps are refused by 14 */
occov_answer occov_witness(const uint8_t *requirement, occov_byte_count requirement_bytes, const uint32_t *run,
                           occov_step_count run_steps, occov_condition_count conditions, occov_occurrence_number occurrence, uint8_t *out,
                           occov_byte_count out_bytes);

/* The covered pairs of one requirement of a suite file: OCCOV_WRITTEN, two bytes a pair, its occurrence (0 to 15) and its run (0 to 63),
 * 0 to 2,048 in all; or refused by 1 to 6, 8, 9, 11, 12 or 14.
 *   file, file_bytes   the suite file and how many bytes; any; 4 to 65,535 are accepted, else 1
 *   requirement        which requirement of the suite
 *   out, out_bytes     lent bytes and how many; any; fewer than 2 times occurrences times runs are refused by 14 */
occov_answer occov_list(const uint8_t *file, occov_byte_count file_bytes, occov_requirement_number requirement, uint8_t *out,
                        occov_byte_count out_bytes);

/* The bench sheet of a suite file, lines of text that end with a line feed (no 0 after them): OCCOV_WRITTEN, at most 426,842 bytes; or
 * refused by 1 to 6, 8, 9, 11 or 14.
 *   file, file_bytes   as above
 *   out, out_bytes     lent bytes and how many; any; fewer than the sheet has are refused by 14 */
occov_answer occov_sheet(const uint8_t *file, occov_byte_count file_bytes, uint8_t *out, occov_byte_count out_bytes);

/* The lone run of an encoder log: OCCOV_TAKEN, a word a step, bit c is condition c, 1 to 4,096 in all, fit for occov_truth and
 * occov_witness with as many conditions as there are limits; or refused by 3, 10, 17 or 14, in that order.
 *   log, log_bytes       two bytes a step, little-endian: the encoder's count, which wraps after 65,535; and how many bytes; any; 2 to
 *                        8,192, an even number, are accepted, else 10. Travel is 0 at step 0, and each step adds the difference of two
 *                        neighbouring counts, read as -32,767 to 32,767; one of exactly 32,768 is refused by 17
 *   limits, conditions   a limit a condition, in encoder counts since step 0, and how many; any; 1 to 32 are accepted, else 3
 *   out, out_steps       lent words and how many, one a step; any; fewer than the log has steps are refused by 14 */
occov_answer occov_take_in(const uint8_t *log, occov_byte_count log_bytes, const occov_limit *limits, occov_condition_count conditions,
                           uint32_t *out, occov_step_count out_steps);

#ifdef __cplusplus
}
#endif
#endif
