/* Worked stages through the C boundary. Prints each difference, and exits with their number (at most 100). */
#include "dulgaverk.h"

#include <stdio.h>
#include <string.h>

/* The layouts that the library was compiled for. */
_Static_assert(sizeof(size_t) == 8, "a place has 8 bytes");
_Static_assert(sizeof(bool) == 1, "a truth value has 1 byte");
_Static_assert(sizeof(dulgaverk_answer) == 24 && offsetof(dulgaverk_answer, number) == 0 &&
                   offsetof(dulgaverk_answer, file) == 1 && offsetof(dulgaverk_answer, place) == 8 &&
                   offsetof(dulgaverk_answer, row) == 16 && offsetof(dulgaverk_answer, step) == 18 &&
                   offsetof(dulgaverk_answer, branch) == 20,
               "an answer");
_Static_assert(sizeof(((dulgaverk_answer *)0)->row) == 2 && sizeof(((dulgaverk_answer *)0)->step) == 2 &&
                   sizeof(((dulgaverk_answer *)0)->branch) == 2,
               "row, step and branch have 2 bytes each");
_Static_assert(sizeof(dulgaverk_read_result) == 40 && offsetof(dulgaverk_read_result, answer) == 0 &&
                   offsetof(dulgaverk_read_result, count) == 24 && offsetof(dulgaverk_read_result, k) == 32 &&
                   offsetof(dulgaverk_read_result, edition) == 33,
               "what reading gives");
_Static_assert(sizeof(dulgaverk_write_result) == 32 && offsetof(dulgaverk_write_result, answer) == 0 &&
                   offsetof(dulgaverk_write_result, count) == 24,
               "what writing gives");
_Static_assert(sizeof(dulgaverk_shorten_result) == 40 && offsetof(dulgaverk_shorten_result, answer) == 0 &&
                   offsetof(dulgaverk_shorten_result, rows) == 24 && offsetof(dulgaverk_shorten_result, count) == 32,
               "what shortening gives");
_Static_assert(sizeof(dulgaverk_tested) == 32 && offsetof(dulgaverk_tested, answer) == 0 &&
                   offsetof(dulgaverk_tested, holds) == 24,
               "what testing gives");

_Static_assert(sizeof(dulgaverk_job) == 48 && offsetof(dulgaverk_job, b) == 16 && offsetof(dulgaverk_job, proof) == 32 &&
                   sizeof(dulgaverk_slot) == 56 && offsetof(dulgaverk_slot, job) == 8,
               "a job and a slot");
_Static_assert(sizeof(dulgaverk_scheduler) == 456 && offsetof(dulgaverk_scheduler, first) == 448, "a scheduler");
_Static_assert(sizeof(dulgaverk_changed) == 480 && offsetof(dulgaverk_changed, answer) == 456 &&
                   sizeof(dulgaverk_turned) == 504 && offsetof(dulgaverk_turned, result) == 456 &&
                   offsetof(dulgaverk_turned, seat) == 488 && offsetof(dulgaverk_turned, idle) == 496,
               "what a scheduler's calls give");

static int differences = 0;

static void expect(bool right, const char *what, int line) {
    if (!right) {
        printf("line %d: %s\n", line, what);
        differences += 1;
    }
}
#define EXPECT(condition) expect((condition), #condition, __LINE__)

#define NONE DULGAVERK_NONE

/* An answer to a proof, with row, step and branch. */
static bool is_at(dulgaverk_answer answer, uint8_t number, size_t place, uint16_t row, uint16_t step, uint16_t branch) {
    return answer.number == number && answer.file == 3 && answer.place == place && answer.row == row &&
           answer.step == step && answer.branch == branch;
}

/* An answer without row, step and branch. */
static bool is(dulgaverk_answer answer, uint8_t number, uint8_t file, size_t place) {
    return answer.number == number && answer.file == file && answer.place == place && answer.row == NONE &&
           answer.step == NONE && answer.branch == NONE;
}

/* Whether all bytes of a buffer are as `fill` left them. */
static bool all(const void *buffer, size_t length, uint8_t byte) {
    const uint8_t *bytes = buffer;
    for (size_t i = 0; i < length; i += 1) {
        if (bytes[i] != byte) {
            return false;
        }
    }
    return true;
}
#define FILL(buffer) memset(buffer, 0xA5, sizeof(buffer))
#define UNCHANGED(buffer) EXPECT(all(buffer, sizeof(buffer), 0xA5))

/* Stage 1: A is y-2x = 0, B is -y+2z+1 = 0, over x, y, z; its formula is "2 divides y". */
static const uint8_t a[] = {0x01, 0, 1, 1, 0x02, 0, 1, 3, 0x04, 0, 8, 0xFF, 0xFE, 0, 1, 0, 0, 0, 0};
static const uint8_t b[] = {0x01, 0, 1, 1, 0x02, 0, 1, 3, 0x04, 0, 8, 0, 0, 0xFF, 0xFF, 0, 2, 0, 1};
static const uint8_t formula[] = {0x01, 0, 1, 1, 0x02, 0, 1, 3, 0x35, 0, 20, 0, 0, 0, 2, 0,
                                  0,    0, 0, 0, 0,    0, 1, 0, 0,    0, 0,  0, 0, 0, 0};

/* -x + 40,000 <= 0 in edition 2. */
static const uint8_t wide[] = {0x01, 0, 1, 2, 0x02, 0, 1, 1, 0x03, 0, 8, 0xFF, 0xFF, 0xFF, 0xFF, 0, 0, 0x9C, 0x40};

static void reading(void) {
    uint8_t kinds[3];
    int32_t numbers[6];
    FILL(kinds);
    FILL(numbers);
    /* Refused by 1, 2, 3, 5, 6, 13, 21: nothing changes. */
    static const uint8_t long_file[DULGAVERK_BUNDLE + 1];
    dulgaverk_read_result r = dulgaverk_read(long_file, sizeof long_file, kinds, 3, numbers, 6);
    EXPECT(is(r.answer, 1, 1, 0) && r.count == 0 && r.k == 0 && r.edition == 0);
    r = dulgaverk_read(a, sizeof a - 1, kinds, 3, numbers, 6);
    EXPECT(is(r.answer, 2, 1, 8) && r.count == 0 && r.k == 0 && r.edition == 0);
    r = dulgaverk_read(NULL, 0, kinds, 3, numbers, 6);
    EXPECT(is(r.answer, 2, 1, 0));
    uint8_t other[sizeof a];
    memcpy(other, a, sizeof a);
    other[8] = 0x06;
    r = dulgaverk_read(other, sizeof other, kinds, 3, numbers, 6);
    EXPECT(is(r.answer, 3, 1, 8));
    memcpy(other, a, sizeof a);
    other[3] = 3;
    r = dulgaverk_read(other, sizeof other, kinds, 3, numbers, 6);
    EXPECT(is(r.answer, 5, 1, 0) && r.edition == 0);
    other[3] = 2;
    r = dulgaverk_read(other, sizeof other, kinds, 3, numbers, 6);
    EXPECT(is(r.answer, 6, 1, 8) && r.edition == 0);
    uint8_t lowest[sizeof wide];
    memcpy(lowest, wide, sizeof wide);
    lowest[15] = 0x80;
    lowest[17] = lowest[18] = 0;
    r = dulgaverk_read(lowest, sizeof lowest, kinds, 3, numbers, 6);
    EXPECT(is(r.answer, 13, 1, 8) && r.count == 0 && r.k == 0 && r.edition == 0);
    /* A note that makes edition 1 longer than 4,096 bytes, and edition 2 as long as it may be. */
    static uint8_t noted[DULGAVERK_BUNDLE] = {0x01, 0, 1, 1, 0x02, 0, 1, 3, 0x80, 0x1F, 0xF5};
    r = dulgaverk_read(noted, sizeof noted, kinds, 3, numbers, 6);
    EXPECT(is(r.answer, 1, 1, 0) && r.edition == 0);
    noted[3] = 2;
    r = dulgaverk_read(noted, sizeof noted, kinds, 3, numbers, 6);
    EXPECT(is(r.answer, 0, 0, 0) && r.count == 0 && r.k == 3 && r.edition == 2);
    r = dulgaverk_read(a, sizeof a, kinds, 3, numbers, 3);
    EXPECT(is(r.answer, 21, 4, 1) && r.count == 0 && r.k == 0);
    r = dulgaverk_read(a, sizeof a, NULL, 0, numbers, 6);
    EXPECT(is(r.answer, 21, 4, 1));
    UNCHANGED(kinds);
    UNCHANGED(numbers);
    /* Accepted: what is behind the used elements stays. */
    r = dulgaverk_read(a, sizeof a, kinds, 3, numbers, 6);
    EXPECT(is(r.answer, 0, 0, 0) && r.count == 1 && r.k == 3 && r.edition == 1);
    EXPECT(kinds[0] == 1 && all(kinds + 1, 2, 0xA5));
    EXPECT(numbers[0] == -2 && numbers[1] == 1 && numbers[2] == 0 && numbers[3] == 0);
    EXPECT(all(numbers + 4, 2 * sizeof numbers[0], 0xA5));
    r = dulgaverk_read(a, 8, NULL, 0, NULL, 0);
    EXPECT(is(r.answer, 0, 0, 0) && r.count == 0 && r.k == 3 && r.edition == 1);
    FILL(kinds);
    FILL(numbers);
    r = dulgaverk_read(wide, sizeof wide, kinds, 3, numbers, 6);
    EXPECT(is(r.answer, 0, 0, 0) && r.count == 1 && r.k == 1 && r.edition == 2);
    EXPECT(kinds[0] == 0 && all(kinds + 1, 2, 0xA5));
    EXPECT(numbers[0] == -1 && numbers[1] == 40000 && all(numbers + 2, 4 * sizeof numbers[0], 0xA5));
}

static void writing(void) {
    static const uint8_t kinds[33] = {1};
    static const int32_t numbers[] = {-2, 1, 0, 0};
    uint8_t out[sizeof a + 4];
    FILL(out);
    dulgaverk_write_result r = dulgaverk_write(3, 17, kinds, 33, numbers, 4, out, 0);
    EXPECT(is(r.answer, 5, 4, 0) && r.count == 0);
    r = dulgaverk_write(0, 3, kinds, 1, numbers, 4, out, sizeof out);
    EXPECT(is(r.answer, 5, 4, 0) && r.count == 0);
    /* A wider number is not cut to the byte that it would have: 257 is no 1, 272 no 16. */
    r = dulgaverk_write(257, 3, kinds, 1, numbers, 4, out, sizeof out);
    EXPECT(is(r.answer, 5, 4, 0));
    r = dulgaverk_write(1, 259, kinds, 1, numbers, 4, out, sizeof out);
    EXPECT(is(r.answer, 7, 4, 0));
    r = dulgaverk_write(1, 17, kinds, 1, numbers, 4, out, sizeof out);
    EXPECT(is(r.answer, 7, 4, 0) && r.count == 0);
    r = dulgaverk_write(1, 0, NULL, 0, NULL, 0, out, sizeof out);
    EXPECT(is(r.answer, 7, 4, 0));
    r = dulgaverk_write(1, 3, kinds, 33, numbers, 4, out, sizeof out);
    EXPECT(is(r.answer, 8, 4, 0));
    static const uint8_t wrong[] = {2, 3};
    r = dulgaverk_write(1, 1, wrong, 2, numbers, 4, out, sizeof out);
    EXPECT(is(r.answer, 24, 4, 1));
    r = dulgaverk_write(1, 3, kinds, 1, numbers, 3, out, sizeof out);
    EXPECT(is(r.answer, 24, 4, 1));
    /* Numbers that two bytes, or no edition, can hold. */
    static const int32_t outside[] = {-32768, 32767, 1, 32768}, lowest[] = {INT32_MAX, -INT32_MAX, INT32_MIN, 0};
    r = dulgaverk_write(1, 3, kinds, 1, outside, 4, out, 0);
    EXPECT(is(r.answer, 13, 4, 3) && r.count == 0);
    r = dulgaverk_write(2, 3, kinds, 1, lowest, 4, out, sizeof out);
    EXPECT(is(r.answer, 13, 4, 2) && r.count == 0);
    r = dulgaverk_write(2, 3, kinds, 1, outside, 4, out, sizeof out);
    EXPECT(is(r.answer, 21, 4, 27) && r.count == 0);
    r = dulgaverk_write(1, 3, kinds, 1, numbers, 4, out, sizeof a - 1);
    EXPECT(is(r.answer, 21, 4, sizeof a) && r.count == 0);
    UNCHANGED(out);
    r = dulgaverk_write(1, 3, kinds, 1, numbers, 4, out, sizeof out);
    EXPECT(is(r.answer, 0, 0, 0) && r.count == sizeof a);
    EXPECT(memcmp(out, a, sizeof a) == 0 && all(out + sizeof a, 4, 0xA5));
    static const uint8_t at_most[] = {0};
    static const int32_t level[] = {-1, 40000};
    FILL(out);
    r = dulgaverk_write(2, 1, at_most, 1, level, 2, out, sizeof out);
    EXPECT(is(r.answer, 0, 0, 0) && r.count == sizeof wide);
    EXPECT(memcmp(out, wide, sizeof wide) == 0 && all(out + sizeof wide, sizeof out - sizeof wide, 0xA5));
}

/* Stage 10 in edition 2: K 16 with 32 constraints is written and read back; the 33rd is refused. */
static void largest(void) {
    uint8_t kinds[32], kinds_back[32], file[DULGAVERK_WRITTEN_BUNDLE + DULGAVERK_FIELD];
    int32_t numbers[DULGAVERK_NUMBERS], numbers_back[DULGAVERK_NUMBERS];
    for (int i = 0; i < 32; i += 1) {
        kinds[i] = (uint8_t)(i % 3);
    }
    for (int i = 0; i < DULGAVERK_NUMBERS; i += 1) {
        numbers[i] = (i - 272) * 7800000;
    }
    dulgaverk_write_result w =
        dulgaverk_write(2, 16, kinds, 32, numbers, DULGAVERK_NUMBERS, file, DULGAVERK_WRITTEN_BUNDLE);
    EXPECT(is(w.answer, 0, 0, 0) && w.count == DULGAVERK_WRITTEN_BUNDLE);
    dulgaverk_read_result r = dulgaverk_read(file, w.count, kinds_back, 32, numbers_back, DULGAVERK_NUMBERS);
    EXPECT(is(r.answer, 0, 0, 0) && r.count == 32 && r.k == 16 && r.edition == 2);
    EXPECT(memcmp(kinds, kinds_back, sizeof kinds) == 0 && memcmp(numbers, numbers_back, sizeof numbers) == 0);
    memcpy(file + DULGAVERK_WRITTEN_BUNDLE, file + 8, DULGAVERK_FIELD);
    r = dulgaverk_read(file, sizeof file, kinds_back, 32, numbers_back, DULGAVERK_NUMBERS);
    EXPECT(is(r.answer, 8, 1, DULGAVERK_WRITTEN_BUNDLE));
}

static void showing(void) {
    uint8_t out[13];
    FILL(out);
    EXPECT(is(dulgaverk_show_answer(a, sizeof a, b, sizeof b, 2), 10, 1, 0));
    EXPECT(dulgaverk_show(a, sizeof a, b, sizeof b, 2, out, sizeof out) == 0);
    EXPECT(is(dulgaverk_show_answer(a, sizeof a, b, 8, 65535), 10, 1, 0));
    EXPECT(is(dulgaverk_show_answer(a, sizeof a, b, sizeof b, 65536), 10, 1, 0));
    EXPECT(dulgaverk_show(a, sizeof a, b, sizeof b, 65536, out, sizeof out) == 0);
    EXPECT(is(dulgaverk_show_answer(a, sizeof a, b, 7, 0), 2, 2, 4));
    EXPECT(dulgaverk_show(a, sizeof a, b, 7, 0, out, sizeof out) == 0);
    EXPECT(is(dulgaverk_show_answer(NULL, 0, NULL, 0, 0), 2, 1, 0));
    EXPECT(dulgaverk_show(NULL, 0, NULL, 0, 0, out, sizeof out) == 0);
    /* One byte too short: the length needed, and nothing copied. */
    EXPECT(dulgaverk_show(a, sizeof a, b, sizeof b, 0, out, 10) == 11);
    EXPECT(dulgaverk_show(a, sizeof a, b, sizeof b, 0, NULL, 0) == 11);
    UNCHANGED(out);
    EXPECT(is(dulgaverk_show_answer(a, sizeof a, b, sizeof b, 0), 0, 0, 0));
    EXPECT(dulgaverk_show(a, sizeof a, b, sizeof b, 0, out, 11) == 11);
    EXPECT(memcmp(out, a + 8, 11) == 0 && all(out + 11, 2, 0xA5));
    EXPECT(dulgaverk_show(a, sizeof a, b, sizeof b, 1, out, sizeof out) == 11);
    EXPECT(memcmp(out, b + 8, 11) == 0 && all(out + 11, 2, 0xA5));
}

static void checking(void) {
    static const uint8_t proof[] = {0x01, 0, 1, 1, 0x02, 0, 1, 3, 0x11, 0, 4, 1, 0, 0, 1, 0x15, 0, 3, 2, 0, 2};
    uint8_t out[sizeof formula + 3], other[sizeof proof];
    FILL(out);
    /* Stage 2, the same with stride 3: 15. */
    memcpy(other, proof, sizeof proof);
    other[20] = 3;
    dulgaverk_write_result r =
        dulgaverk_check(a, sizeof a, b, sizeof b, other, sizeof other, out, sizeof out);
    EXPECT(is_at(r.answer, 15, 15, 1, NONE, NONE) && r.count == 0);
    /* Stage 7: 20 at place 8. */
    r = dulgaverk_check(a, 8, b, 8, proof, 8, out, sizeof out);
    EXPECT(is(r.answer, 20, 3, 8) && r.count == 0);
    /* Nothing at all, and too much. */
    r = dulgaverk_check(NULL, 0, NULL, 0, NULL, 0, out, sizeof out);
    EXPECT(is(r.answer, 2, 1, 0));
    r = dulgaverk_check(a, sizeof a, NULL, 0, NULL, 0, out, sizeof out);
    EXPECT(is(r.answer, 2, 2, 0));
    r = dulgaverk_check(a, sizeof a, b, sizeof b, NULL, 0, out, sizeof out);
    EXPECT(is(r.answer, 2, 3, 0));
    static const uint8_t long_file[DULGAVERK_PROOF + 1];
    r = dulgaverk_check(a, sizeof a, b, sizeof b, long_file, sizeof long_file, out, sizeof out);
    EXPECT(is(r.answer, 1, 3, 0));
    r = dulgaverk_check(a, sizeof a, long_file, DULGAVERK_BUNDLE + 1, proof, sizeof proof, out, sizeof out);
    EXPECT(is(r.answer, 1, 2, 0));
    /* One byte too short. */
    r = dulgaverk_check(a, sizeof a, b, sizeof b, proof, sizeof proof, out, sizeof formula - 1);
    EXPECT(is(r.answer, 21, 4, sizeof formula) && r.count == 0);
    r = dulgaverk_check(a, sizeof a, b, sizeof b, proof, sizeof proof, NULL, 0);
    EXPECT(is(r.answer, 21, 4, sizeof formula));
    UNCHANGED(out);
    /* Stage 1. */
    r = dulgaverk_check(a, sizeof a, b, sizeof b, proof, sizeof proof, out, sizeof out);
    EXPECT(is(r.answer, 0, 0, 0) && r.count == sizeof formula);
    EXPECT(memcmp(out, formula, sizeof formula) == 0 && all(out + sizeof formula, 3, 0xA5));
    /* Stage 8: a note after 0x02 changes nothing. */
    static const uint8_t noted[] = {0x01, 0,    1, 1, 0x02, 0, 1, 3, 0x90, 0, 1, 7,
                                    0x11, 0,    4, 1, 0,    0, 1, 0x15, 0, 3, 2, 0, 2};
    FILL(out);
    r = dulgaverk_check(a, sizeof a, b, sizeof b, noted, sizeof noted, out, sizeof formula);
    EXPECT(is(r.answer, 0, 0, 0) && r.count == sizeof formula);
    EXPECT(memcmp(out, formula, sizeof formula) == 0 && all(out + sizeof formula, 3, 0xA5));
}

/* Stage 5, A 2x-1 <= 0 and B -2x+1 <= 0: a strengthen and its branches, then faults in the branches. */
static void branches(void) {
    static const uint8_t a5[] = {0x01, 0, 1, 1, 0x02, 0, 1, 1, 0x03, 0, 4, 0, 2, 0xFF, 0xFF};
    static const uint8_t b5[] = {0x01, 0, 1, 1, 0x02, 0, 1, 1, 0x03, 0, 4, 0xFF, 0xFE, 0, 1};
    static const uint8_t proof[] = {0x01, 0,    1, 1, 0x02, 0, 1, 1, 0x13, 0, 1,    0,    0x10, 0, 6,
                                    2,    1,    0, 1, 0,    1, 0x14, 0, 1,    3, 0x15, 0,    3,    2, 0,
                                    2,    0x10, 0, 6, 2,    1, 0, 1, 0,    1, 0x14, 0,    1,    3};
    uint8_t out[51], other[sizeof proof + 4];
    _Static_assert(sizeof proof == 44, "the proof of stage 5");
    FILL(out);
    /* A stride of 3 in the middle branch. */
    memcpy(other, proof, sizeof proof);
    other[30] = 3;
    dulgaverk_write_result r =
        dulgaverk_check(a5, sizeof a5, b5, sizeof b5, other, sizeof proof, out, sizeof out);
    EXPECT(is_at(r.answer, 15, 25, 3, 0, 1) && r.count == 0);
    /* The file ends after the middle branch, and before the first. */
    r = dulgaverk_check(a5, sizeof a5, b5, sizeof b5, proof, 31, out, sizeof out);
    EXPECT(is_at(r.answer, 20, 31, NONE, 0, 2) && r.count == 0);
    r = dulgaverk_check(a5, sizeof a5, b5, sizeof b5, proof, 12, out, sizeof out);
    EXPECT(is_at(r.answer, 20, 12, NONE, 0, 0) && r.count == 0);
    /* A field that is not whole, in the third branch. */
    r = dulgaverk_check(a5, sizeof a5, b5, sizeof b5, proof, 39, out, sizeof out);
    EXPECT(is_at(r.answer, 2, 31, NONE, 0, 2) && r.count == 0);
    /* A known field after the root. */
    memcpy(other, proof, sizeof proof);
    memcpy(other + sizeof proof, proof + 8, 4);
    r = dulgaverk_check(a5, sizeof a5, b5, sizeof b5, other, sizeof other, out, sizeof out);
    EXPECT(is(r.answer, 19, 3, 44) && r.count == 0);
    UNCHANGED(out);
    r = dulgaverk_check(a5, sizeof a5, b5, sizeof b5, proof, sizeof proof, out, sizeof out);
    EXPECT(is(r.answer, 0, 0, 0) && r.count == sizeof out);
}

static void testing(void) {
    static const int32_t even[] = {1, 4, -7}, odd[] = {1, -3, 0}, outside[] = {1, 4, -1000001};
    dulgaverk_tested t = dulgaverk_test(formula, sizeof formula, even, 3);
    EXPECT(is(t.answer, 0, 0, 0) && t.holds);
    t = dulgaverk_test(formula, sizeof formula, odd, 3);
    EXPECT(is(t.answer, 0, 0, 0) && !t.holds);
    t = dulgaverk_test(formula, sizeof formula, outside, 3);
    EXPECT(is(t.answer, 23, 4, 2) && !t.holds);
    t = dulgaverk_test(formula, sizeof formula, even, 2);
    EXPECT(is(t.answer, 9, 3, 4) && !t.holds);
    t = dulgaverk_test(formula, sizeof formula, NULL, 0);
    EXPECT(is(t.answer, 7, 4, 0) && !t.holds);
    t = dulgaverk_test(formula, 8, even, 3);
    EXPECT(is(t.answer, 2, 3, 8) && !t.holds);
    t = dulgaverk_test(NULL, 0, even, 3);
    EXPECT(is(t.answer, 2, 3, 0) && !t.holds);
    static const uint8_t long_file[DULGAVERK_PROOF + 1];
    t = dulgaverk_test(long_file, sizeof long_file, even, 3);
    EXPECT(is(t.answer, 1, 3, 0) && !t.holds);
}

/* The formula of stage 1 at lists of vectors of three values. */
static void testing_lists(void) {
    static const int32_t list[] = {1, 4, -7, 1, -3, 0, 0, -1000000, 5}, outside[] = {1, 4, -7, 1, 1000001, 0};
    static const int32_t many[272] = {0};
    uint8_t out[5];
    FILL(out);
    /* 7, where the list is not whole vectors too: 272 is not 16, and nothing is divided by 0. */
    static const size_t wrong[] = {0, 17, 272, 65552, SIZE_MAX};
    for (size_t i = 0; i < sizeof wrong / sizeof wrong[0]; i += 1) {
        dulgaverk_write_result r = dulgaverk_test_list(formula, sizeof formula, wrong[i], many, 272, out, sizeof out);
        EXPECT(is(r.answer, 7, 4, 0) && r.count == 0);
        r = dulgaverk_test_list(formula, sizeof formula, wrong[i], NULL, 0, out, sizeof out);
        EXPECT(is(r.answer, 7, 4, 0) && r.count == 0);
    }
    dulgaverk_write_result r = dulgaverk_test_list(formula, sizeof formula, 3, list, 8, out, sizeof out);
    EXPECT(is(r.answer, 7, 4, 0) && r.count == 0);
    /* 23 at the index in the whole list, before the formula. */
    r = dulgaverk_test_list(NULL, 0, 3, outside, 6, out, 0);
    EXPECT(is(r.answer, 23, 4, 4) && r.count == 0);
    /* The formula before 21, for an empty list too. */
    r = dulgaverk_test_list(formula, 8, 3, list, 9, out, 0);
    EXPECT(is(r.answer, 2, 3, 8) && r.count == 0);
    r = dulgaverk_test_list(formula, 8, 3, NULL, 0, NULL, 0);
    EXPECT(is(r.answer, 2, 3, 8) && r.count == 0);
    r = dulgaverk_test_list(formula, sizeof formula, 1, list, 9, out, sizeof out);
    EXPECT(is(r.answer, 9, 3, 4) && r.count == 0);
    static const uint8_t long_file[DULGAVERK_PROOF + 1];
    r = dulgaverk_test_list(long_file, sizeof long_file, 3, list, 9, out, sizeof out);
    EXPECT(is(r.answer, 1, 3, 0) && r.count == 0);
    r = dulgaverk_test_list(formula, sizeof formula, 3, list, 9, out, 2);
    EXPECT(is(r.answer, 21, 4, 3) && r.count == 0);
    UNCHANGED(out);
    r = dulgaverk_test_list(formula, sizeof formula, 3, NULL, 0, NULL, 0);
    EXPECT(is(r.answer, 0, 0, 0) && r.count == 0);
    r = dulgaverk_test_list(formula, sizeof formula, 3, list, 9, out, sizeof out);
    EXPECT(is(r.answer, 0, 0, 0) && r.count == 3);
    EXPECT(out[0] == 1 && out[1] == 0 && out[2] == 1 && all(out + 3, 2, 0xA5));
}

/* A register at least 40,000 in A and at most 30,000 in B: a proof of edition 2, and one of edition 1 over the same. */
static void editions(void) {
    static const uint8_t most[] = {0x01, 0, 1, 2, 0x02, 0, 1, 1, 0x03, 0, 8, 0, 0, 0, 1, 0xFF, 0xFF, 0x8A, 0xD0};
    static const uint8_t first[] = {0x01, 0, 1, 1, 0x02, 0, 1, 1, 0x10, 0, 6, 0, 1, 0, 1, 0, 1, 0x14, 0, 1, 2};
    static const uint8_t second[] = {0x01, 0, 1, 2, 0x02, 0, 1, 1, 0x10, 0,    8, 0,
                                     0,    0, 1, 0, 1,    0, 1, 0x14, 0,    2, 0, 2};
    static const uint8_t level[] = {0x01, 0,    1,    1,    0x02, 0, 1, 1,    0x33, 0,
                                    8,    0xFF, 0xFF, 0xFF, 0xFF, 0, 0, 0x9C, 0x40};
    uint8_t out[sizeof level], other[sizeof wide];
    FILL(out);
    dulgaverk_write_result r =
        dulgaverk_check(wide, sizeof wide, most, sizeof most, second, sizeof second, out, sizeof out);
    EXPECT(is(r.answer, 0, 0, 0) && r.count == sizeof level && memcmp(out, level, sizeof level) == 0);
    FILL(out);
    r = dulgaverk_check(wide, sizeof wide, most, sizeof most, first, sizeof first, out, sizeof out);
    EXPECT(is(r.answer, 0, 0, 0) && r.count == sizeof level && memcmp(out, level, sizeof level) == 0);
    FILL(out);
    /* As a reader of two bytes sees 40,000: -25,536. And the same bytes under edition 1. */
    static const uint8_t cut[] = {0x01, 0, 1, 1, 0x02, 0, 1, 1, 0x03, 0, 4, 0xFF, 0xFF, 0x9C, 0x40};
    r = dulgaverk_check(cut, sizeof cut, most, sizeof most, second, sizeof second, out, sizeof out);
    EXPECT(is_at(r.answer, 15, 19, 1, NONE, NONE) && r.count == 0);
    memcpy(other, wide, sizeof wide);
    other[3] = 1;
    r = dulgaverk_check(other, sizeof other, most, sizeof most, second, sizeof second, out, sizeof out);
    EXPECT(is(r.answer, 6, 1, 8) && r.count == 0);
    /* A formula of edition 2. */
    static const int32_t value[] = {50000};
    uint8_t formula_2[sizeof level];
    memcpy(formula_2, level, sizeof level);
    dulgaverk_tested t = dulgaverk_test(formula_2, sizeof formula_2, value, 1);
    EXPECT(is(t.answer, 0, 0, 0) && t.holds);
    formula_2[3] = 2;
    t = dulgaverk_test(formula_2, sizeof formula_2, value, 1);
    EXPECT(is(t.answer, 5, 3, 0) && !t.holds);
    UNCHANGED(out);
}

/* Stage 1's B and proof turned up and down again; then each refusal. */
static void turning(void) {
    static const uint8_t b2[] = {0x01, 0, 1,    2,    0x02, 0,    1, 3, 0x04, 0, 16, 0, 0, 0,
                                 0,    0xFF, 0xFF, 0xFF, 0xFF, 0, 0, 0, 2,    0, 0,  0, 1};
    static const uint8_t noted[] = {0x90, 0, 1, 7, 0x01, 0, 1, 1, 0x02, 0, 1, 3,    0xFF, 0, 0, 0x11, 0,    4,
                                    1,    0, 0, 1, 0x80, 0, 1, 9, 0x15, 0, 3, 2, 0, 2, 0x80, 0, 0};
    static const uint8_t plain[] = {0x01, 0, 1, 1, 0x02, 0, 1, 3, 0x11, 0, 4, 1, 0, 0, 1, 0x15, 0, 3, 2, 0, 2};
    static const uint8_t wider[] = {0x01, 0, 1, 2, 0x02, 0, 1, 3, 0x11, 0, 6, 0,
                                    1,    0, 0, 0, 1,    0x15, 0, 4, 0, 2, 0, 2};
    uint8_t out[40], other[sizeof b2];
    FILL(out);
    static const uint8_t long_file[DULGAVERK_PROOF + 1];
    /* The edition asked for comes first. */
    for (unsigned asked = 0; asked < 256; asked += asked == 0 ? 3 : 1) {
        dulgaverk_write_result r = dulgaverk_turn_bundle(long_file, sizeof long_file, asked, out, 0);
        EXPECT(is(r.answer, 5, 4, 0) && r.count == 0);
        r = dulgaverk_turn_proof(NULL, 0, asked, out, sizeof out);
        EXPECT(is(r.answer, 5, 4, 0) && r.count == 0);
    }
    /* Numbers that one, two and four bytes would cut to 1 or 2 are refused too. */
    static const size_t cut[] = {256, 257, 258, 65537, 65538, 0x100000001, 0x100000002, SIZE_MAX};
    for (size_t i = 0; i < sizeof cut / sizeof cut[0]; i += 1) {
        dulgaverk_write_result w = dulgaverk_turn_bundle(b2, sizeof b2, cut[i], out, sizeof out);
        EXPECT(is(w.answer, 5, 4, 0) && w.count == 0);
        w = dulgaverk_turn_bundle(b, sizeof b, cut[i], out, sizeof out);
        EXPECT(is(w.answer, 5, 4, 0) && w.count == 0);
        w = dulgaverk_turn_proof(plain, sizeof plain, cut[i], out, sizeof out);
        EXPECT(is(w.answer, 5, 4, 0) && w.count == 0);
        w = dulgaverk_turn_proof(wider, sizeof wider, cut[i], out, sizeof out);
        EXPECT(is(w.answer, 5, 4, 0) && w.count == 0);
    }
    dulgaverk_write_result r = dulgaverk_turn_bundle(long_file, DULGAVERK_BUNDLE + 1, 2, out, sizeof out);
    EXPECT(is(r.answer, 1, 1, 0) && r.count == 0);
    r = dulgaverk_turn_proof(long_file, sizeof long_file, 2, out, sizeof out);
    EXPECT(is(r.answer, 1, 3, 0) && r.count == 0);
    r = dulgaverk_turn_bundle(NULL, 0, 1, out, sizeof out);
    EXPECT(is(r.answer, 2, 1, 0) && r.count == 0);
    r = dulgaverk_turn_proof(NULL, 0, 2, out, sizeof out);
    EXPECT(is(r.answer, 2, 3, 0) && r.count == 0);
    /* The edition that the file has already, and one that is none. */
    r = dulgaverk_turn_bundle(b2, sizeof b2, 2, out, sizeof out);
    EXPECT(is(r.answer, 5, 1, 0) && r.count == 0);
    r = dulgaverk_turn_proof(noted, sizeof noted, 1, out, sizeof out);
    EXPECT(is(r.answer, 5, 3, 4) && r.count == 0);
    memcpy(other, b2, sizeof b2);
    other[3] = 3;
    r = dulgaverk_turn_bundle(other, sizeof other, 1, out, sizeof out);
    EXPECT(is(r.answer, 5, 1, 0) && r.count == 0);
    /* 40,000 in two bytes, and line 512 in one. */
    r = dulgaverk_turn_bundle(wide, sizeof wide, 1, out, sizeof out);
    EXPECT(is(r.answer, 13, 1, 8) && r.count == 0);
    memcpy(other, wider, sizeof wider);
    other[20] = 2;
    r = dulgaverk_turn_proof(other, sizeof wider, 1, out, sizeof out);
    EXPECT(is(r.answer, 10, 3, 17) && r.count == 0);
    /* One byte too short. */
    r = dulgaverk_turn_bundle(b, sizeof b, 2, out, sizeof b2 - 1);
    EXPECT(is(r.answer, 21, 4, sizeof b2) && r.count == 0);
    r = dulgaverk_turn_bundle(b, sizeof b, 2, NULL, 0);
    EXPECT(is(r.answer, 21, 4, sizeof b2) && r.count == 0);
    r = dulgaverk_turn_proof(noted, sizeof noted, 2, out, sizeof wider - 1);
    EXPECT(is(r.answer, 21, 4, sizeof wider) && r.count == 0);
    UNCHANGED(out);
    r = dulgaverk_turn_bundle(b, sizeof b, 2, out, sizeof out);
    EXPECT(is(r.answer, 0, 0, 0) && r.count == sizeof b2);
    EXPECT(memcmp(out, b2, sizeof b2) == 0 && all(out + sizeof b2, sizeof out - sizeof b2, 0xA5));
    FILL(out);
    r = dulgaverk_turn_bundle(b2, sizeof b2, 1, out, sizeof out);
    EXPECT(is(r.answer, 0, 0, 0) && r.count == sizeof b);
    EXPECT(memcmp(out, b, sizeof b) == 0 && all(out + sizeof b, sizeof out - sizeof b, 0xA5));
    FILL(out);
    r = dulgaverk_turn_proof(noted, sizeof noted, 2, out, sizeof out);
    EXPECT(is(r.answer, 0, 0, 0) && r.count == sizeof wider);
    EXPECT(memcmp(out, wider, sizeof wider) == 0 && all(out + sizeof wider, sizeof out - sizeof wider, 0xA5));
    FILL(out);
    r = dulgaverk_turn_proof(wider, sizeof wider, 1, out, sizeof out);
    EXPECT(is(r.answer, 0, 0, 0) && r.count == sizeof plain);
    EXPECT(memcmp(out, plain, sizeof plain) == 0 && all(out + sizeof plain, sizeof out - sizeof plain, 0xA5));
    /* The longest result, and one byte more. */
    static uint8_t rows[8 + 4 * 13102 + 14 + 1], turned[DULGAVERK_PROOF];
    memcpy(rows, plain, 8);
    size_t length = 8;
    for (int i = 0; i < 13102; i += 1) {
        memcpy(rows + length, "\x14\0\1\3", 4);
        length += 4;
    }
    memcpy(rows + length, "\x11\0\4\0\0\0\1\x11\0\4\0\0\0\1", 14);
    length += 14;
    r = dulgaverk_turn_proof(rows, length, 2, turned, sizeof turned);
    EXPECT(is(r.answer, 0, 0, 0) && r.count == DULGAVERK_PROOF);
    FILL(turned);
    /* 13,103 closes and two scales: 65,537. */
    length = 8 + 4 * 13102;
    memcpy(rows + length, "\x14\0\1\3\x12\0\3\0\0\1", 10);
    length += 10;
    static uint8_t longer[sizeof rows + 6];
    memcpy(longer, rows, length);
    memcpy(longer + length, "\x12\0\3\0\0\1", 6);
    r = dulgaverk_turn_proof(longer, length + 6, 2, turned, sizeof turned);
    EXPECT(is(r.answer, 1, 4, DULGAVERK_PROOF + 1) && r.count == 0);
    UNCHANGED(turned);
}

static bool same(dulgaverk_scheduler a, dulgaverk_scheduler b) {
    return memcmp(&a, &b, sizeof a) == 0;
}

/* Jobs at seats: stage 6, the same with a part outside the buffer, and with a proof that has one field too many. */
static void scheduling(void) {
    static const uint8_t buffer[] = {0x01, 0, 1, 1, 0x02, 0, 1, 1, 0x03, 0, 4, 0, 0,    0,
                                     1,    0x01, 0, 1, 1, 0x02, 0, 1, 1, 0x14, 0, 1, 0, 0x14};
    static const dulgaverk_job job = {{0, 15}, {0, 8}, {15, 27}}, outside = {{0, 15}, {0, 29}, {15, 27}},
                               backwards = {{0, 15}, {8, 0}, {15, 27}}, cut = {{0, 15}, {28, 28}, {15, 28}};
    dulgaverk_scheduler none, empty = dulgaverk_scheduler_empty();
    memset(&none, 0, sizeof none);
    EXPECT(same(empty, none));
    uint8_t out[64];
    FILL(out);
    dulgaverk_turned t = dulgaverk_scheduler_turn(empty, buffer, sizeof buffer, out, sizeof out);
    EXPECT(t.idle && is(t.result.answer, 35, 4, 0) && t.seat == 0 && t.result.count == 0 && same(t.scheduler, empty));
    UNCHANGED(out);
    /* no seat: a number that does not fit in a byte is none either */
    static const size_t seats[] = {8, 255, 256, 259, SIZE_MAX};
    for (size_t i = 0; i < sizeof seats / sizeof seats[0]; i += 1) {
        dulgaverk_changed c = dulgaverk_scheduler_submit(empty, seats[i], job);
        EXPECT(is(c.answer, 29, 4, 0) && same(c.scheduler, empty));
        c = dulgaverk_scheduler_cancel(empty, seats[i]);
        EXPECT(is(c.answer, 29, 4, 0) && same(c.scheduler, empty));
    }
    dulgaverk_changed c = dulgaverk_scheduler_cancel(empty, 3);
    EXPECT(is(c.answer, 31, 4, 0) && same(c.scheduler, empty));
    c = dulgaverk_scheduler_submit(c.scheduler, 3, job);
    EXPECT(is(c.answer, 0, 0, 0) && c.scheduler.slots[3].waiting == 1 && c.scheduler.slots[3].job.proof.end == 27);
    dulgaverk_scheduler before = c.scheduler;
    c = dulgaverk_scheduler_submit(c.scheduler, 3, outside);
    EXPECT(is(c.answer, 30, 4, 0) && same(c.scheduler, before));
    c = dulgaverk_scheduler_cancel(c.scheduler, 3);
    EXPECT(is(c.answer, 0, 0, 0) && same(c.scheduler, empty));
    c = dulgaverk_scheduler_submit(before, 1, outside);
    EXPECT(is(c.answer, 0, 0, 0) && c.scheduler.slots[1].job.b.end == 29);
    c = dulgaverk_scheduler_submit(c.scheduler, 2, backwards);
    EXPECT(is(c.answer, 0, 0, 0));
    c = dulgaverk_scheduler_submit(c.scheduler, 0, cut);
    EXPECT(is(c.answer, 0, 0, 0));
    /* seats 0 to 3 in turn: an empty B at the buffer's end, two that are not within it, the accepted one */
    t = dulgaverk_scheduler_turn(c.scheduler, buffer, sizeof buffer, out, sizeof out);
    EXPECT(!t.idle && t.seat == 0 && is(t.result.answer, 2, 2, 0) && t.scheduler.first == 1);
    for (size_t seat = 1; seat < 3; seat += 1) {
        t = dulgaverk_scheduler_turn(t.scheduler, buffer, sizeof buffer, out, sizeof out);
        EXPECT(!t.idle && t.seat == seat && is(t.result.answer, 34, 4, 0) && t.result.count == 0 && t.scheduler.first == seat + 1);
    }
    UNCHANGED(out);
    t = dulgaverk_scheduler_turn(t.scheduler, buffer, sizeof buffer, out, sizeof out);
    EXPECT(!t.idle && t.seat == 3 && is(t.result.answer, 0, 0, 0) && t.result.count == 19);
    none.first = 4;
    EXPECT(same(t.scheduler, none));
    /* places are counted in the part */
    static const dulgaverk_job late = {{0, 15}, {0, 8}, {15, 28}};
    c = dulgaverk_scheduler_submit(t.scheduler, 7, late);
    t = dulgaverk_scheduler_turn(c.scheduler, buffer, sizeof buffer, out, sizeof out);
    EXPECT(!t.idle && t.seat == 7 && is(t.result.answer, 2, 3, 12) && t.scheduler.first == 0);
    /* a state that no call leaves: any number but 0 waits, and the seat to look at first counts by its remainder */
    none.slots[2].waiting = SIZE_MAX;
    none.slots[2].job = job;
    none.slots[4].waiting = 256;
    none.first = SIZE_MAX - 4;
    c = dulgaverk_scheduler_submit(none, 4, job);
    EXPECT(is(c.answer, 30, 4, 0) && same(c.scheduler, none));
    t = dulgaverk_scheduler_turn(none, buffer, sizeof buffer, out, sizeof out);
    EXPECT(!t.idle && t.seat == 4 && is(t.result.answer, 2, 1, 0) && t.scheduler.first == 5);
    t = dulgaverk_scheduler_turn(t.scheduler, buffer, sizeof buffer, out, sizeof out);
    EXPECT(!t.idle && t.seat == 2 && is(t.result.answer, 0, 0, 0) && t.scheduler.first == 3);
}

static bool text_is(const uint8_t *out, size_t count, size_t length, const char *text) {
    return count == strlen(text) && memcmp(out, text, count) == 0 && all(out + count, length - count, 0xA5);
}

/* The guards of stages 1 and 5, both ways. */
static void printing(void) {
    static const uint8_t five[] = {0x01, 0, 1, 1, 0x02, 0, 1, 1, 0x31, 0, 0, 0x33, 0, 8, 0, 0, 0,
                                   2,    0, 0, 0, 0,    0x32, 0, 0, 0x35, 0, 12, 0, 0, 0, 2, 0, 0,
                                   0,    0, 0, 0, 0,    1, 0x33, 0, 8, 0, 0, 0, 2, 0xFF, 0xFF, 0xFF, 0xFF};
    static const char smt[] = "(or (<= (+ (* 2 r0) 0) 0) (and (= (mod 1 2) 0) (<= (+ (* 2 r0) (- 1)) 0)))";
    static const char words[] = "2*r0 <= 0 or (2 divides 1 and 2*r0 - 1 <= 0)";
    uint8_t out[100];
    FILL(out);
    /* Refused by 1, 2, 5, 12, 21: nothing changes. */
    static const uint8_t long_file[DULGAVERK_PROOF + 1];
    uint8_t other[sizeof formula];
    dulgaverk_write_result r = dulgaverk_print(long_file, sizeof long_file, out, sizeof out);
    EXPECT(is(r.answer, 1, 3, 0) && r.count == 0);
    r = dulgaverk_print_words(long_file, sizeof long_file, out, sizeof out);
    EXPECT(is(r.answer, 1, 3, 0) && r.count == 0);
    r = dulgaverk_print(NULL, 0, NULL, 0);
    EXPECT(is(r.answer, 2, 3, 0) && r.count == 0);
    r = dulgaverk_print_words(formula, sizeof formula - 1, out, sizeof out);
    EXPECT(is(r.answer, 2, 3, 8) && r.count == 0);
    memcpy(other, formula, sizeof formula);
    other[3] = 2;
    r = dulgaverk_print(other, sizeof other, out, sizeof out);
    EXPECT(is(r.answer, 5, 3, 0) && r.count == 0);
    memcpy(other, formula, sizeof formula);
    other[14] = 1;
    r = dulgaverk_print_words(other, sizeof other, out, sizeof out);
    EXPECT(is(r.answer, 12, 3, 8) && r.count == 0);
    r = dulgaverk_print(five, sizeof five, NULL, 0);
    EXPECT(is(r.answer, 21, 4, strlen(smt)) && r.count == 0);
    r = dulgaverk_print(five, sizeof five, out, strlen(smt) - 1);
    EXPECT(is(r.answer, 21, 4, strlen(smt)) && r.count == 0);
    r = dulgaverk_print_words(five, sizeof five, out, strlen(words) - 1);
    EXPECT(is(r.answer, 21, 4, strlen(words)) && r.count == 0);
    UNCHANGED(out);
    r = dulgaverk_print(five, sizeof five, out, strlen(smt));
    EXPECT(is(r.answer, 0, 0, 0) && text_is(out, r.count, sizeof out, smt));
    FILL(out);
    r = dulgaverk_print_words(five, sizeof five, out, sizeof out);
    EXPECT(is(r.answer, 0, 0, 0) && text_is(out, r.count, sizeof out, words));
    FILL(out);
    r = dulgaverk_print(formula, sizeof formula, out, sizeof out);
    EXPECT(is(r.answer, 0, 0, 0) && text_is(out, r.count, sizeof out, "(= (mod (+ (* 1 r1) 0) 2) 0)"));
    FILL(out);
    r = dulgaverk_print_words(formula, sizeof formula, out, sizeof out);
    EXPECT(is(r.answer, 0, 0, 0) && text_is(out, r.count, sizeof out, "2 divides 1*r1"));
}

/* All short proofs of stage 1, from the header on; then what is refused. */
static void short_proofs(void) {
    uint8_t table[DULGAVERK_SHORT_PROOF], out[DULGAVERK_SHORT_PROOF + 1], formula[100];
    memcpy(table, a, 8);
    size_t length = 8, count = 0;
    dulgaverk_write_result r;
    for (;;) {
        FILL(out);
        r = dulgaverk_next_proof(a, sizeof a, b, sizeof b, table, length, out, sizeof out);
        if (r.answer.number != 0) {
            break;
        }
        EXPECT(is(r.answer, 0, 0, 0) && r.count <= DULGAVERK_SHORT_PROOF);
        EXPECT(all(out + r.count, sizeof out - r.count, 0xA5));
        EXPECT(dulgaverk_check(a, sizeof a, b, sizeof b, out, r.count, formula, sizeof formula).answer.number == 0);
        memcpy(table, out, r.count);
        length = r.count;
        count += 1;
    }
    EXPECT(count == 344 && is(r.answer, 33, 4, 0) && r.count == 0);
    UNCHANGED(out);
    /* The first: reduce 0, 1, 1, then close line 2 by stride 2. */
    static const uint8_t first[] = {0x01, 0, 1, 1, 0x02, 0, 1, 3, 0x11, 0, 4, 0, 1, 0, 1, 0x15, 0, 3, 2, 0, 2};
    r = dulgaverk_next_proof(a, sizeof a, b, sizeof b, a, 8, out, sizeof first);
    EXPECT(is(r.answer, 0, 0, 0) && r.count == sizeof first && memcmp(out, first, sizeof first) == 0);
    FILL(out);
    /* Refused by 1, 2, 9, 8, 32, 33, 21: nothing changes. */
    static const uint8_t long_file[DULGAVERK_BUNDLE + 1];
    r = dulgaverk_next_proof(long_file, sizeof long_file, long_file, sizeof long_file, a, 8, out, sizeof out);
    EXPECT(is(r.answer, 1, 1, 0) && r.count == 0);
    r = dulgaverk_next_proof(NULL, 0, long_file, sizeof long_file, a, 8, out, sizeof out);
    EXPECT(is(r.answer, 1, 2, 0) && r.count == 0);
    r = dulgaverk_next_proof(NULL, 0, NULL, 0, NULL, 0, NULL, 0);
    EXPECT(is(r.answer, 2, 1, 0) && r.count == 0);
    r = dulgaverk_next_proof(a, sizeof a, wide, sizeof wide, a, 8, out, sizeof out);
    EXPECT(is(r.answer, 9, 2, 4) && r.count == 0);
    uint8_t five[8 + 5 * 11];
    memcpy(five, a, 8);
    for (int i = 0; i < 5; i += 1) {
        memcpy(five + 8 + 11 * i, a + 8, 11);
    }
    r = dulgaverk_next_proof(five, sizeof five, b, 8, NULL, 0, out, sizeof out);
    EXPECT(is(r.answer, 8, 4, 0) && r.count == 0);
    r = dulgaverk_next_proof(five, 8 + 4 * 11, b, sizeof b, NULL, 0, out, sizeof out);
    EXPECT(is(r.answer, 8, 4, 0) && r.count == 0);
    r = dulgaverk_next_proof(a, sizeof a, b, sizeof b, NULL, 0, out, sizeof out);
    EXPECT(is(r.answer, 32, 4, 0) && r.count == 0);
    r = dulgaverk_next_proof(a, sizeof a, b, sizeof b, wide, 8, out, sizeof out);
    EXPECT(is(r.answer, 32, 4, 0) && r.count == 0);
    r = dulgaverk_next_proof(a, sizeof a, b, sizeof b, first, sizeof first - 1, out, sizeof out);
    EXPECT(is(r.answer, 32, 4, 0) && r.count == 0);
    r = dulgaverk_next_proof(a, sizeof a, b, 8, a, 8, out, sizeof out);
    EXPECT(is(r.answer, 33, 4, 0) && r.count == 0);
    r = dulgaverk_next_proof(a, sizeof a, b, sizeof b, a, 8, out, sizeof first - 1);
    EXPECT(is(r.answer, 21, 4, sizeof first) && r.count == 0);
    r = dulgaverk_next_proof(a, sizeof a, b, sizeof b, a, 8, NULL, 0);
    EXPECT(is(r.answer, 21, 4, sizeof first) && r.count == 0);
    UNCHANGED(out);
}

/* Stage 3 with a row that nothing uses: scale line 0 by 2, a note, combine lines 0 and 1, close line 3 by number. */
static void shortening(void) {
    static const uint8_t own[] = {0x01, 0, 1, 1, 0x02, 0, 1, 1, 0x03, 0, 4, 0, 1, 0, 0};
    static const uint8_t theirs[] = {0x01, 0, 1, 1, 0x02, 0, 1, 1, 0x03, 0, 4, 0xFF, 0xFF, 0, 1};
    uint8_t proof[] = {0x01, 0, 1, 1, 0x02, 0, 1, 1,    0x12, 0, 3, 0, 0, 2, 0x80,
                       0,    0, 0x10, 0, 6, 0, 1, 0, 1,    0, 1,    0x14, 0, 1, 3};
    static const uint8_t table[] = {0x01, 0, 1, 1, 0x02, 0, 1, 1, 0x10, 0, 6, 0, 1, 0, 1, 0, 1, 0x14, 0, 1, 2};
    uint8_t report[5], out[64];
    FILL(report);
    FILL(out);
    dulgaverk_shorten_result r;
    /* Either output too short: the table's bytes. */
    static const size_t short_ones[][2] = {{2, sizeof out}, {5, sizeof table - 1}, {0, 0}};
    for (size_t i = 0; i < 3; i += 1) {
        r = dulgaverk_shorten(own, sizeof own, theirs, sizeof theirs, proof, sizeof proof, report, short_ones[i][0], out,
                              short_ones[i][1]);
        EXPECT(is(r.answer, 21, 4, sizeof table) && r.rows == 0 && r.count == 0);
    }
    r = dulgaverk_shorten(own, sizeof own, theirs, sizeof theirs, proof, sizeof proof, NULL, 0, NULL, 0);
    EXPECT(is(r.answer, 21, 4, sizeof table));
    /* What a check refuses: B, a row that nothing needs, a close. */
    r = dulgaverk_shorten(own, sizeof own, NULL, 0, proof, sizeof proof, report, sizeof report, out, sizeof out);
    EXPECT(is(r.answer, 2, 2, 0) && r.rows == 0 && r.count == 0);
    proof[11] = 9;
    r = dulgaverk_shorten(own, sizeof own, theirs, sizeof theirs, proof, sizeof proof, report, sizeof report, out, sizeof out);
    EXPECT(is_at(r.answer, 10, 8, 0, NONE, NONE) && r.rows == 0 && r.count == 0);
    proof[11] = 0;
    proof[29] = 2;
    r = dulgaverk_shorten(own, sizeof own, theirs, sizeof theirs, proof, sizeof proof, report, sizeof report, out, sizeof out);
    EXPECT(is_at(r.answer, 15, 26, 2, NONE, NONE));
    proof[29] = 3;
    UNCHANGED(report);
    UNCHANGED(out);
    r = dulgaverk_shorten(own, sizeof own, theirs, sizeof theirs, proof, sizeof proof, report, sizeof report, out, sizeof out);
    EXPECT(is(r.answer, 0, 0, 0) && r.rows == 3 && r.count == sizeof table);
    EXPECT(report[0] == 0 && report[1] == 1 && report[2] == 2 && all(report + 3, 2, 0xA5));
    EXPECT(memcmp(out, table, sizeof table) == 0 && all(out + sizeof table, sizeof out - sizeof table, 0xA5));
    /* The same table again, with outputs that are just long enough. */
    r = dulgaverk_shorten(own, sizeof own, theirs, sizeof theirs, table, sizeof table, report, 2, out, sizeof table);
    EXPECT(is(r.answer, 0, 0, 0) && r.rows == 2 && r.count == sizeof table && report[0] == 1 && report[1] == 2);
    EXPECT(memcmp(out, table, sizeof table) == 0);
}

/* A run of three stages over x and y: x <= 2; y <= x + 3; y >= 9. */
static void runs(void) {
    static const uint8_t buffer[] = {0x01, 0, 1, 1, 0x02, 0, 1, 2, 0x03, 0, 6, 0,    1,    0,    0,    0xFF, 0xFE,
                                     0x01, 0, 1, 1, 0x02, 0, 1, 2, 0x03, 0, 6, 0xFF, 0xFF, 0,    1,    0xFF, 0xFD,
                                     0x01, 0, 1, 1, 0x02, 0, 1, 2, 0x03, 0, 6, 0,    0,    0xFF, 0xFF, 0,    9};
    static const size_t lengths[] = {17, 17, 17};
    static const uint8_t proof[] = {0x01, 0, 1, 1, 0x02, 0,    1, 2, 0x10, 0, 6, 0, 1, 0,    1, 0, 1,
                                    0x10, 0, 6, 3, 2,    0,    1, 0, 1,    0x14, 0, 1, 4};
    static const uint8_t expected[4][12] = {{0}, {0, 0, 0, 1, 0, 0, 0, 0, 0xFF, 0xFF, 0xFF, 0xFE},
                                            {0, 0, 0, 0, 0, 0, 0, 1, 0xFF, 0xFF, 0xFF, 0xFB}, {0, 0, 0, 0, 0, 0, 0, 0, 0, 0, 0, 4}};
    uint8_t out[96];
    size_t sizes[6];
    FILL(out);
    FILL(sizes);
    dulgaverk_write_result r;
    /* How many stages, and what their lengths add up to, also where a sum wraps. */
    static const size_t wrong[][4] = {{17, 17, 16, 0}, {17, 17, 18, 0}, {SIZE_MAX, 52, 0, 0}, {51, 1, SIZE_MAX, 0}};
    for (size_t i = 0; i < 4; i += 1) {
        r = dulgaverk_guards(buffer, sizeof buffer, wrong[i], 3, proof, sizeof proof, out, sizeof out, sizes, 6);
        EXPECT(is(r.answer, 25, 4, 0) && r.count == 0);
    }
    r = dulgaverk_guards(buffer, sizeof buffer, NULL, 0, proof, sizeof proof, out, sizeof out, sizes, 6);
    EXPECT(is(r.answer, 25, 4, 0));
    static const size_t many[17] = {17, 17, 17};
    r = dulgaverk_guards(buffer, sizeof buffer, many, 17, proof, sizeof proof, out, sizeof out, sizes, 6);
    EXPECT(is(r.answer, 25, 4, 0));
    /* Sixteen stages, the fourth without bytes: file 14. */
    r = dulgaverk_guards(buffer, sizeof buffer, many, 16, proof, sizeof proof, out, sizeof out, sizes, 6);
    EXPECT(is(r.answer, 2, 14, 0));
    /* Places count from the stage's start. */
    static const size_t shifted[] = {17, 16, 18};
    r = dulgaverk_guards(buffer, sizeof buffer, shifted, 3, proof, sizeof proof, out, sizeof out, sizes, 6);
    EXPECT(is(r.answer, 2, 12, 8));
    /* Outputs: the bytes of all guards, also where the sizes have no room. */
    r = dulgaverk_guards(buffer, sizeof buffer, lengths, 3, proof, sizeof proof, out, 91, sizes, 6);
    EXPECT(is(r.answer, 21, 4, 92) && r.count == 0);
    r = dulgaverk_guards(buffer, sizeof buffer, lengths, 3, proof, sizeof proof, out, sizeof out, sizes, 3);
    EXPECT(is(r.answer, 21, 4, 92));
    r = dulgaverk_guards(buffer, sizeof buffer, lengths, 3, proof, sizeof proof, NULL, 0, NULL, 0);
    EXPECT(is(r.answer, 21, 4, 92));
    /* A claim, here the right one: 27, of the row before it. */
    uint8_t claimed[sizeof proof + 27];
    memcpy(claimed, proof, 17);
    memcpy(claimed + 17, "\x20\0\x18\0\0\0\0\0\0\0\1\xFF\xFF\xFF\xFB\0\0\0\1\0\0\0\0\xFF\xFF\xFF\xFE", 27);
    memcpy(claimed + 44, proof + 17, sizeof proof - 17);
    r = dulgaverk_guards(buffer, sizeof buffer, lengths, 3, claimed, sizeof claimed, out, sizeof out, sizes, 6);
    EXPECT(is_at(r.answer, 27, 17, 0, NONE, NONE) && r.count == 0);
    /* Strengthen line 0; the third branch has a row more: 28 at its close. */
    static const uint8_t stage[] = {0x01, 0, 1, 1, 0x02, 0, 1, 1, 0x03, 0, 4, 0, 0, 0, 1};
    static const size_t length[] = {sizeof stage};
    static const uint8_t unlike[] = {0x01, 0, 1, 1, 0x02, 0, 1, 1, 0x13, 0,    1, 0, 0x14, 0,    1, 0,
                                     0x14, 0, 1, 0, 0x12, 0, 3, 0, 0,    1, 0x14, 0, 1,    0};
    r = dulgaverk_guards(stage, sizeof stage, length, 1, unlike, sizeof unlike, out, sizeof out, sizes, 6);
    EXPECT(is_at(r.answer, 28, 26, 4, 0, 2) && r.count == 0);
    UNCHANGED(out);
    UNCHANGED(sizes);
    r = dulgaverk_guards(buffer, sizeof buffer, lengths, 3, proof, sizeof proof, out, sizeof out, sizes, 6);
    EXPECT(is(r.answer, 0, 0, 0) && r.count == 92);
    for (size_t i = 0; i < 4; i += 1) {
        EXPECT(sizes[i] == 23 && memcmp(out + 23 * i, proof, 8) == 0 && memcmp(out + 23 * i + 8, "\x33\0\x0C", 3) == 0);
        EXPECT(memcmp(out + 23 * i + 11, expected[i], 12) == 0);
    }
    EXPECT(all(sizes + 4, 2 * sizeof sizes[0], 0xA5) && all(out + 92, 4, 0xA5));
    /* 65 constraints in three stages. */
    static uint8_t crowd[3 * 8 + 65 * 7];
    size_t filled = 0, crowded[] = {8 + 32 * 7, 8 + 32 * 7, 8 + 7};
    for (size_t i = 0; i < 3; i += 1) {
        memcpy(crowd + filled, stage, 8);
        for (size_t place = 8; place < crowded[i]; place += 7) {
            memcpy(crowd + filled + place, stage + 8, 7);
        }
        filled += crowded[i];
    }
    r = dulgaverk_guards(crowd, sizeof crowd, crowded, 3, NULL, 0, out, sizeof out, sizes, 6);
    EXPECT(is(r.answer, 26, 4, 0));
}

int main(void) {
    reading();
    writing();
    largest();
    showing();
    checking();
    branches();
    editions();
    testing();
    testing_lists();
    scheduling();
    turning();
    printing();
    short_proofs();
    shortening();
    runs();
    return differences < 100 ? differences : 100;
}
