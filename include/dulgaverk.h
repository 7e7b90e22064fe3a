/* Dulgaverk, the verified office checker: its operations for C and C++.
 *
 * Link target/staticlib/libdulgaverk.a, which `scripts/library` writes (x86-64 Linux), or what `./install` puts below a
 * folder, with the flags of `pkg-config --cflags --libs dulgaverk`. It needs nothing but the C library.
 *
 * In every call
 * - a file or list is a pointer and a length. The length counts elements, not bytes. Where it is 0 the pointer is never
 *   looked at, and may be NULL.
 * - any bytes and numbers may be given: nothing has to be tested before a call. Only the memory must be there: `length`
 *   elements to read, and for what is lent without `const` as many to write, which overlap nothing else that is passed.
 * - a refusal leaves every lent output as it was. An accepted call changes the elements used, from the front, and
 *   leaves those behind them as they were.
 * - nothing is allocated, kept or shared: calls may run in several threads at once.
 * - working memory is on the stack: a check takes up to 152 KiB of it where the proof is of edition 1 and up to
 *   272 KiB where it is of edition 2, also as a turn of the scheduler (which takes 2 KiB more than the check itself),
 *   shortening up to 168 KiB and 288 KiB likewise, the guards of a run up to 192 KiB, testing a formula up to 72 KiB,
 *   at a list of vectors up to 96 KiB, printing one up to 152 KiB, every other call less than 12 KiB.
 *   With less than that left the process ends by SIGSEGV, as by every overflow of a stack, and no answer is given.
 * - each file is read by the edition that it says: A, B and the proof may differ in it. Formulas are of edition 1.
 *
 * docs/FORMAT.md has the layout of the files and the order in which each operation tests them.
 */
#ifndef DULGAVERK_H
#define DULGAVERK_H

#include <stdbool.h>
#include <stddef.h>
#include <stdint.h>

#ifdef __cplusplus
extern "C" {
#endif

/* The editions of bundles and proofs. */
#define DULGAVERK_EDITION_1 1 /* numbers of two bytes, line numbers of one */
#define DULGAVERK_EDITION_2 2 /* numbers of four bytes, line numbers of two */

/* The kinds of constraints. */
enum dulgaverk_kind {
    DULGAVERK_INEQUALITY = 0, /* t <= 0 */
    DULGAVERK_EQUALITY = 1,   /* t = 0 */
    DULGAVERK_DISEQUALITY = 2 /* t != 0 */
};

/* The limits. Those of a bundle are the larger ones, of edition 2. */
#define DULGAVERK_CONSTANTS 16        /* constants of a file */
#define DULGAVERK_CONSTRAINTS 32      /* constraints of a bundle */
#define DULGAVERK_NUMBERS 544         /* numbers of a bundle: 32 constraints of 16 coefficients and d */
#define DULGAVERK_BUNDLE 8192         /* bytes of a bundle; 4,096 in edition 1 */
#define DULGAVERK_WRITTEN_BUNDLE 2280 /* bytes of a bundle that dulgaverk_write or dulgaverk_turn_bundle makes; 1,192 in edition 1 */
#define DULGAVERK_FIELD 71            /* bytes of a constraint's field; 37 in edition 1 */
#define DULGAVERK_PROOF 65536         /* bytes of a proof */
#define DULGAVERK_FORMULA 65536       /* bytes of a formula */
#define DULGAVERK_VALUE 1000000       /* the largest register value; the least is as far below 0 */
#define DULGAVERK_TEXT 393216         /* bytes of a printed formula: six for each byte of its file are always enough */
#define DULGAVERK_SHORT_PROOF 32      /* bytes of a short proof */
#define DULGAVERK_ROWS 1024           /* rows of a proof */
#define DULGAVERK_STAGES 16           /* stages of a run */
#define DULGAVERK_RUN_CONSTRAINTS 64  /* constraints of a run, of all its stages together */
#define DULGAVERK_GUARDS 1114112      /* bytes of all guards of a run: 17 formulas */

/* A row, step or branch of an answer where there is none. */
#define DULGAVERK_NONE 65535

/* What an operation answers. Accepted is 0, 0, 0 with no row, step or branch.
 *
 * number  meaning
 *      1  a file is longer than its limit, or a formula or a turned proof would be
 *      2  bytes are no whole field, or a file ends too early
 *      3  a tag below 0x80 that this kind of file does not have
 *      4  a known tag where it may not stand
 *      5  an edition that this kind of file does not have, or that a file to be turned has already
 *      6  a field of the wrong length
 *      7  the number of constants, or of values, is not 1 to 16, or a list is not whole vectors
 *      8  more than 32 constraints, or for short proofs more than 4 in both bundles
 *      9  the number of constants is not the one given before
 *     10  a line that is not there, or a line number that has no room in the edition asked for
 *     11  a line of the wrong kind
 *     12  a multiplier of 0, a stride below 2, or a rounding by 0 or more than 16
 *     13  a number of a new line, or of a bundle, is out of range
 *     14  a claim that is not the new line
 *     15  a close or rounding whose condition is not met
 *     16  a 129th line on a branch, or in edition 2 a 1,001st
 *     17  a 33rd open step, or in a formula a 601st level of and/or
 *     18  a 1,025th row
 *     19  a known field after the end of the proof or formula
 *     20  branches are still open at the end of the proof
 *     21  a lent output is too short
 *     22  no longer given; its number is not used again
 *     23  a register value outside -1,000,000 to 1,000,000
 *     24  a kind that is not 0, 1 or 2, or the wrong count of numbers
 *     25  not 1 to 16 stages, or lengths that do not add up to the buffer
 *     26  more than 64 constraints in a run
 *     27  a claim in the proof of a run
 *     28  branches that a run needs alike are not
 *     29  a seat above 7
 *     30  a job for a seat where one waits
 *     31  no job waits at the seat
 *     32  a table that is not among the short proofs
 *     33  no short proof follows the table
 *     34  a part of a job does not lie in the buffer
 *     35  no job waits
 *
 *   file  1 A, or a bundle read or turned alone; 2 B; 3 the proof or formula; 4 a lent output, or no file; 11 to 26 a stage
 *         of a run, 10 + i for stage i, counted from 1
 *  place  the byte at which the field at fault starts, if nothing else is said
 *
 * The other three say where in the tree of a proof that is; 65,535 says that there is none.
 *
 *    row  the row at fault; rows are numbered in the file from 0, claims and notes are none. In a proof 10 to 13, 15 to
 *         18 and 28 have their own row, 14 and 27 that before the claim, every other refusal none
 *   step  the row number of the innermost step (a strengthen, rounding or split) that is open where the fault is found,
 *         before the field at fault takes effect; for 20 at the end of the proof. None on the root, and after its close
 * branch  which branch of that step it is, from 0 in file order, at most 16; none where step is
 *
 * Only a check has them, also as a turn of the scheduler, shortening, and the guards of a run: the other operations, and what
 * these refuse of A, B, a stage or a lent output, have none.
 */
typedef struct dulgaverk_answer {
    uint8_t number;
    uint8_t file;
    size_t place;
    uint16_t row;
    uint16_t step;
    uint16_t branch;
} dulgaverk_answer;

/* The numbers by name. 22 is no longer given. */
enum dulgaverk_number {
    DULGAVERK_ACCEPTED = 0,
    DULGAVERK_REFUSED_TOO_LONG = 1,
    DULGAVERK_REFUSED_NOT_WHOLE = 2,
    DULGAVERK_REFUSED_UNKNOWN_TAG = 3,
    DULGAVERK_REFUSED_MISPLACED_TAG = 4,
    DULGAVERK_REFUSED_EDITION = 5,
    DULGAVERK_REFUSED_FIELD_LENGTH = 6,
    DULGAVERK_REFUSED_COUNT = 7,
    DULGAVERK_REFUSED_TOO_MANY_CONSTRAINTS = 8,
    DULGAVERK_REFUSED_OTHER_CONSTANTS = 9,
    DULGAVERK_REFUSED_NO_LINE = 10,
    DULGAVERK_REFUSED_KIND_OF_LINE = 11,
    DULGAVERK_REFUSED_MULTIPLIER = 12,
    DULGAVERK_REFUSED_NUMBER_RANGE = 13,
    DULGAVERK_REFUSED_CLAIM = 14,
    DULGAVERK_REFUSED_CONDITION = 15,
    DULGAVERK_REFUSED_TOO_MANY_LINES = 16,
    DULGAVERK_REFUSED_TOO_DEEP = 17,
    DULGAVERK_REFUSED_TOO_MANY_ROWS = 18,
    DULGAVERK_REFUSED_AFTER_END = 19,
    DULGAVERK_REFUSED_STILL_OPEN = 20,
    DULGAVERK_REFUSED_OUTPUT_TOO_SHORT = 21,
    DULGAVERK_REFUSED_VALUE_RANGE = 23,
    DULGAVERK_REFUSED_KIND = 24,
    DULGAVERK_REFUSED_STAGES = 25,
    DULGAVERK_REFUSED_TOO_MANY_RUN_CONSTRAINTS = 26,
    DULGAVERK_REFUSED_CLAIM_IN_RUN = 27,
    DULGAVERK_REFUSED_UNLIKE_BRANCHES = 28,
    DULGAVERK_REFUSED_SEAT = 29,
    DULGAVERK_REFUSED_SEAT_TAKEN = 30,
    DULGAVERK_REFUSED_SEAT_EMPTY = 31,
    DULGAVERK_REFUSED_TABLE = 32,
    DULGAVERK_REFUSED_LAST_TABLE = 33,
    DULGAVERK_REFUSED_JOB_PART = 34,
    DULGAVERK_REFUSED_NO_JOB = 35
};

/* What the number of an answer means, in the words of the table; 0 is "accepted", a number behind the table "no refusal". */
static inline const char *dulgaverk_meaning(size_t number) {
    static const char *const meanings[] = {
        "accepted",
        "a file is longer than its limit, or a formula or a turned proof would be",
        "bytes are no whole field, or a file ends too early",
        "a tag below 0x80 that this kind of file does not have",
        "a known tag where it may not stand",
        "an edition that this kind of file does not have, or that a file to be turned has already",
        "a field of the wrong length",
        "the number of constants, or of values, is not 1 to 16, or a list is not whole vectors",
        "more than 32 constraints, or for short proofs more than 4 in both bundles",
        "the number of constants is not the one given before",
        "a line that is not there, or a line number that has no room in the edition asked for",
        "a line of the wrong kind",
        "a multiplier of 0, a stride below 2, or a rounding by 0 or more than 16",
        "a number of a new line, or of a bundle, is out of range",
        "a claim that is not the new line",
        "a close or rounding whose condition is not met",
        "a 129th line on a branch, or in edition 2 a 1,001st",
        "a 33rd open step, or in a formula a 601st level of and/or",
        "a 1,025th row",
        "a known field after the end of the proof or formula",
        "branches are still open at the end of the proof",
        "a lent output is too short",
        "no longer given; its number is not used again",
        "a register value outside -1,000,000 to 1,000,000",
        "a kind that is not 0, 1 or 2, or the wrong count of numbers",
        "not 1 to 16 stages, or lengths that do not add up to the buffer",
        "more than 64 constraints in a run",
        "a claim in the proof of a run",
        "branches that a run needs alike are not",
        "a seat above 7",
        "a job for a seat where one waits",
        "no job waits at the seat",
        "a table that is not among the short proofs",
        "no short proof follows the table",
        "a part of a job does not lie in the buffer",
        "no job waits"
    };
    return number < sizeof meanings / sizeof *meanings ? meanings[number] : "no refusal";
}

/* What reading a bundle gives. A refusal has count 0, k 0 and edition 0. */
typedef struct dulgaverk_read_result {
    dulgaverk_answer answer;
    size_t count;    /* constraints */
    uint8_t k;       /* constants */
    uint8_t edition; /* 1 or 2 */
} dulgaverk_read_result;

/* What writing, checking, turning, testing at a list, printing, the next short proof and the guards of a run give. A refusal
 * has count 0. */
typedef struct dulgaverk_write_result {
    dulgaverk_answer answer;
    size_t count; /* bytes written; of a list, the number of vectors; of a run, the bytes of all guards */
} dulgaverk_write_result;

/* What shortening gives. A refusal has rows 0 and count 0. */
typedef struct dulgaverk_shorten_result {
    dulgaverk_answer answer;
    size_t rows;  /* rows of the proof: bytes of the report */
    size_t count; /* bytes of the shorter table */
} dulgaverk_shorten_result;

/* What testing a formula gives. A refusal has holds false. */
typedef struct dulgaverk_tested {
    dulgaverk_answer answer;
    bool holds;
} dulgaverk_tested;

/* Checks that wait at eight seats and are served in turn: the scheduler. A seat is a number, 0 to 7; a slot is what stands at
 * a seat. The state is a struct by value: each call is handed one and gives the next. Any state may be handed in: a slot's
 * job waits where `waiting` is not 0, and a `first` above 7 counts by its remainder by 8. The state has no padding: two states
 * are equal just where their bytes are, and all bytes 0 is the state in which no job waits. */
#define DULGAVERK_SEATS 8

/* Where a file stands in the buffer: from byte `start` to the byte before `end`. */
typedef struct dulgaverk_part {
    size_t start;
    size_t end;
} dulgaverk_part;

/* A job: where its three files stand. Any numbers may be given; they are tested when the job is served. */
typedef struct dulgaverk_job {
    dulgaverk_part a;
    dulgaverk_part b;
    dulgaverk_part proof;
} dulgaverk_job;

/* What stands at a seat: `waiting` is 0 where no job waits; a submission sets it to 1. A call that clears a slot sets all its numbers to 0. */
typedef struct dulgaverk_slot {
    size_t waiting;
    dulgaverk_job job;
} dulgaverk_slot;

typedef struct dulgaverk_scheduler {
    dulgaverk_slot slots[DULGAVERK_SEATS];
    size_t first; /* the seat that the next turn looks at first */
} dulgaverk_scheduler;

/* What submitting and cancelling give. A refusal leaves the state as it was. */
typedef struct dulgaverk_changed {
    dulgaverk_scheduler scheduler;
    dulgaverk_answer answer;
} dulgaverk_changed;

/* What a turn gives. Where `idle` is true no job waited: the answer's number is 35, its file 4, its place 0, its row, step and
 * branch 65,535; seat and count are 0, and the state is as it was. So the number is 0 just where a job was accepted. */
typedef struct dulgaverk_turned {
    dulgaverk_scheduler scheduler;
    dulgaverk_write_result result; /* what the check of the job gave */
    size_t seat;                   /* the seat served */
    bool idle;
} dulgaverk_turned;

/* Reads a bundle of at most 8,192 bytes, or 4,096 in edition 1.
 *
 * Accepted: `count` constraints over `k` constants, and the edition. kinds[i] is 0 where constraint i says "t <= 0", 1 where it says
 * "t = 0" and 2 where it says "t != 0"; numbers[i * (k + 1)] and the k numbers after it are its coefficients and then d.
 * 32 kinds and 544 numbers are always enough.
 * Refused: 1 to 8 and 13 with file 1, 13 for a number that is -2,147,483,648; 21 with file 4, and as place the number
 * of constraints, where either output is too short. 1 comes first above 8,192 bytes, and after 5 above 4,096 bytes of
 * edition 1, both at place 0.
 */
dulgaverk_read_result dulgaverk_read(const uint8_t *file, size_t file_length, uint8_t *kinds, size_t kinds_length,
                                     int32_t *numbers, size_t numbers_length);

/* Writes a bundle of an edition over k constants: one kind and k + 1 numbers for each constraint, as dulgaverk_read gives
 * them.
 *
 * Accepted: `count` bytes of `out`, at most 2,280.
 * Refused, all with file 4: 5 for the edition, 7 for k and 8 for more than 32 kinds (place 0); 24 for a kind (place its
 * index), else for the count of numbers (place the number of kinds); 13 for a number that the edition cannot hold or that
 * is -2,147,483,648 (place the number's index); 21 where `out` is too short (place the bytes needed).
 */
dulgaverk_write_result dulgaverk_write(size_t edition, size_t k, const uint8_t *kinds, size_t kinds_length,
                                       const int32_t *numbers, size_t numbers_length, uint8_t *out,
                                       size_t out_length);

/* Whether there is a constraint for a line number: A's are 0, 1, .. in file order, then B's.
 *
 * Refused: what a check refuses of A (file 1) and of B (file 2), then 10 with file 1 and place 0.
 */
dulgaverk_answer dulgaverk_show_answer(const uint8_t *a, size_t a_length, const uint8_t *b, size_t b_length,
                                       size_t line);

/* Copies that constraint's field, tag and length and contents, to the front of `out`, and returns its length: at most
 * 71, and 0 where dulgaverk_show_answer refuses. A length above out_length says that nothing was copied.
 */
size_t dulgaverk_show(const uint8_t *a, size_t a_length, const uint8_t *b, size_t b_length, size_t line,
                      uint8_t *out, size_t out_length);

/* Checks a proof of at most 65,536 bytes that A and B contradict each other.
 *
 * Accepted: `count` bytes of `out` are the file of the interpolant, a formula that holds wherever A is met, fails wherever
 * B is met, and names only constants that both use. 65,536 bytes are always enough.
 * Refused: 1 for A and B above 8,192 bytes and the proof above 65,536 (files 1, 2, 3, place 0); then what reading refuses
 * of A and of B, for B also 9; then 2 to 7 and 9 to 20 with file 3; then with file 4, and as place the bytes needed, 1
 * where the formula would have more than 65,536 bytes, whatever `out` is, and 21 where `out` is too short.
 */
dulgaverk_write_result dulgaverk_check(const uint8_t *a, size_t a_length, const uint8_t *b, size_t b_length,
                                       const uint8_t *proof, size_t proof_length, uint8_t *out, size_t out_length);

/* Finds the rows of a proof that nothing rests on, and writes the table without them. A row that makes a line (0x10 to 0x12) is
 * needed where a close or a branching row names its line, or a needed row does, on a branch where that line stands.
 *
 * Accepted: `rows` bytes of `report`, one a row in file order: 1 needed, 0 not, 2 a close or branching row, which always stays;
 * and `count` bytes of `out`, a proof of the same edition with the needed rows, their claims, and all rows of 2, line numbers
 * adjusted, notes left out. It has no more bytes than the proof, and a check of it with A and B gives what a check of the proof
 * gives; shortened again it stays. 1,024 bytes of `report` and 65,536 of `out` are always enough.
 * Refused: what dulgaverk_check refuses with 65,536 bytes lent, also 1 where the formula would be too long; then 21 with file 4
 * and as place the bytes of the shorter table, where either output is too short.
 */
dulgaverk_shorten_result dulgaverk_shorten(const uint8_t *a, size_t a_length, const uint8_t *b, size_t b_length,
                                      const uint8_t *proof, size_t proof_length, uint8_t *report,
                                      size_t report_length, uint8_t *out, size_t out_length);

/* Makes the guards of a run of n stages, 1 to 16: bundles end to end in `buffer`, of `lengths_length` = n lengths. The proof is
 * one over the lines of all stages in order. Guard i, from 0 to n, is the formula that the proof gives with the stages 1 to i as
 * A and the others as B: guard 0 holds everywhere, guard n nowhere, and guard i wherever guard i - 1 and stage i do.
 *
 * Accepted: `count` bytes of `out`, the n + 1 guard files end to end, and their lengths in sizes[0] to sizes[n]. 17 sizes and
 * 1,114,112 bytes are always enough.
 * Refused, in this order: 25 (file 4, place 0); 1 for each stage above 8,192 bytes (file 10 + i, place 0) and for the proof above
 * 65,536 (file 3, place 0); what reading refuses of each stage, from the second on also 9 where its number of constants is not the
 * first one's; 26 (file 4, place 0); then with file 3 what a check refuses of the proof, but 13 where a number is out of range for
 * any guard, 27 for every claim in its place and of the right length, whatever it says, in place of 14, and after 15 28 at the
 * close that ends the last branch of a strengthen whose first and third branch are not the same rows, or of a rounding whose
 * branches are not all the same, notes aside; then with file 4, and as place the bytes of all guards, 1 where a guard would have
 * more than 65,536 bytes, whatever the outputs are, and 21 where either output is too short. Places in a stage count from its own
 * start.
 */
dulgaverk_write_result dulgaverk_guards(const uint8_t *buffer, size_t buffer_length, const size_t *lengths,
                                        size_t lengths_length, const uint8_t *proof, size_t proof_length,
                                        uint8_t *out, size_t out_length, size_t *sizes, size_t sizes_length);

/* Tests a formula of at most 65,536 bytes at register values, one for each constant, each within +-1,000,000.
 *
 * Accepted: whether it holds.
 * Refused: 7 for the number of values (file 4, place 0) and 23 for a value (file 4, place its index); then 1, 2, 3, 19,
 * 4, 6, 5, 7, 9, 12 and 17 with file 3. 5 is for every edition but 1; 9 says that the formula's constants are not as
 * many as the values.
 */
dulgaverk_tested dulgaverk_test(const uint8_t *formula, size_t formula_length, const int32_t *values,
                                size_t values_length);

/* Turns a bundle, or a proof, into the other edition; `edition` is the one asked for, and may be any number. Notes are left
 * out, claims keep their form, and the rest of `out` stays.
 *
 * Accepted: `count` bytes of `out`, at most 2,280 of a bundle and 65,536 of a proof.
 * Refused, in this order: 5 with file 4 and place 0 for every edition but 1 and 2; 1 for a bundle above 8,192 bytes (file 1)
 * or a proof above 65,536 (file 3), place 0; then a bundle as in reading, a proof as in check by 2, 3, 4, 6, 5 and 7 (no
 * line, row or branch is looked for), with 5 also where the file has the edition asked for; then, the file read whole and
 * turned down, 13 at the first field with a number that two bytes cannot hold, or 10 at the first row with a line number
 * above 255; then 1 for a proof whose result would be above 65,536 bytes, and 21, both with file 4 and as place the bytes
 * needed.
 */
dulgaverk_write_result dulgaverk_turn_bundle(const uint8_t *file, size_t file_length, size_t edition, uint8_t *out,
                                             size_t out_length);
dulgaverk_write_result dulgaverk_turn_proof(const uint8_t *file, size_t file_length, size_t edition, uint8_t *out,
                                            size_t out_length);

/* The state in which no job waits, and seat 0 is looked at first. */
dulgaverk_scheduler dulgaverk_scheduler_empty(void);

/* Submits a job for a seat.
 *
 * Refused, with file 4 and place 0: 29 for a seat above 7, 30 where a job waits there.
 */
dulgaverk_changed dulgaverk_scheduler_submit(dulgaverk_scheduler state, size_t seat, dulgaverk_job job);

/* Cancels the job that waits at a seat.
 *
 * Refused, with file 4 and place 0: 29 for a seat above 7, 31 where no job waits there.
 */
dulgaverk_changed dulgaverk_scheduler_cancel(dulgaverk_scheduler state, size_t seat);

/* Serves the first job that waits, from the seat after the one served last upwards, 0 after 7 (in the empty state from seat 0
 * on): checks its parts of the buffer as they are now, into `out`, and clears its slot, whatever the check answers. From the
 * empty state on, with each call handed the state that the one before gave, a job that is not cancelled is served by the eighth
 * turn after its submission at the latest.
 *
 * The result is that of dulgaverk_check on the three parts, with places counted in the part; 34 with file 4 and place 0 where a
 * part ends before it starts or behind the buffer's end; 35 with file 4 and place 0 where no job waits.
 */
dulgaverk_turned dulgaverk_scheduler_turn(dulgaverk_scheduler state, const uint8_t *buffer, size_t buffer_length,
                                          uint8_t *out, size_t out_length);

/* Tests a formula of at most 65,536 bytes at a list of vectors: k register values each, one vector after the other.
 *
 * Accepted: `count` vectors; out[i] is 1 where the formula holds at vector i, and 0 where it does not.
 * Refused: 7 where k is not 1 to 16 or the list is not whole vectors of k (file 4, place 0), and 23 for a value (file 4,
 * place its index in the list); then what dulgaverk_test refuses of the formula, which is read once, also for an empty
 * list; then 21 where `out` is too short (file 4, place the number of vectors).
 */
dulgaverk_write_result dulgaverk_test_list(const uint8_t *formula, size_t formula_length, size_t k,
                                           const int32_t *values, size_t values_length, uint8_t *out,
                                           size_t out_length);

/* Prints a formula of at most 65,536 bytes, of any number of constants, which are called r0, r1, ..: as a term of SMT-LIB 2
 * over integer constants, or in words. The text is ASCII without a newline, and no byte 0 is put behind it.
 *
 * Accepted: `count` bytes of `out` are the text, at most six for each byte of the formula.
 * Refused: 1 (file 3, place 0); then 2, 3, 19, 4, 6, 5, 7, 12 and 17 with file 3, as dulgaverk_test reads a formula, but
 * whatever K it has, so never 9; then 21 where `out` is too short (file 4, place the bytes needed).
 */
dulgaverk_write_result dulgaverk_print(const uint8_t *formula, size_t formula_length, uint8_t *out, size_t out_length);
dulgaverk_write_result dulgaverk_print_words(const uint8_t *formula, size_t formula_length, uint8_t *out,
                                             size_t out_length);

/* Lists all short proofs that A and B, of at most four constraints together, contradict each other: the tables of edition 1
 * that dulgaverk_check accepts with output enough, of one to three rows 0x10 to 0x15, without claims and notes, with the
 * multipliers 1 and 2 (in a reduce also -1 and -2) and the strides 2 to 4. They are ordered by the number of rows, then by
 * their bytes. Given one of them as `table`, the next is written; given the header alone (eight bytes: edition 1 and A's K),
 * the first.
 *
 * Accepted: `count` bytes of `out` are that table, at most 32.
 * Refused: 1 for A and B above 8,192 bytes (files 1, 2, place 0); then what reading refuses of A and of B, for B also 9; then
 * with file 4 and place 0, 8 for a fifth constraint, 32 for a table that is neither one of them nor the header alone, and 33
 * after the last one, or where there is none; then 21 where `out` is too short (file 4, place the bytes of the next table).
 */
dulgaverk_write_result dulgaverk_next_proof(const uint8_t *a, size_t a_length, const uint8_t *b, size_t b_length,
                                            const uint8_t *table, size_t table_length, uint8_t *out,
                                            size_t out_length);

#ifdef __cplusplus
}
#endif

#endif
