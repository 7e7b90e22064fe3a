/* What the header itself has: the words of each number, the names of numbers and kinds, the limits, and what too little stack
 * does. Prints the words of the numbers 0 to 36, one line each. */
#define _POSIX_C_SOURCE 200809L
#include <dulgaverk.h>
#include <pthread.h>
#include <signal.h>
#include <stdio.h>
#include <string.h>
#include <sys/wait.h>
#include <unistd.h>

/* x <= 0. */
static const uint8_t formula[] = {1, 0, 1, 1, 2, 0, 1, 1, 0x33, 0, 8, 0, 0, 0, 1, 0, 0, 0, 0};
static uint8_t file[DULGAVERK_PROOF + 1], out[DULGAVERK_FORMULA];

/* Notes of so many bytes together, and nothing else. */
static void note(size_t length) {
    memset(file, 0, length);
    for (size_t at = 0; at < length;) {
        size_t most = length - at > 60000 ? 60000 : length - at;
        file[at] = 0x80;
        file[at + 1] = (uint8_t)((most - 3) >> 8);
        file[at + 2] = (uint8_t)(most - 3);
        at += most;
    }
}

/* Each limit is the last length or value that is not refused for it. */
static int limits(void) {
    for (int32_t over = 0; over < 2; over++) {
        uint8_t too_long = over ? DULGAVERK_REFUSED_TOO_LONG : DULGAVERK_REFUSED_NOT_WHOLE;
        int32_t high = DULGAVERK_VALUE + over, low = -DULGAVERK_VALUE - over;
        uint8_t range = over ? DULGAVERK_REFUSED_VALUE_RANGE : DULGAVERK_ACCEPTED;
        note(DULGAVERK_BUNDLE + (size_t)over);
        if (dulgaverk_read(file, DULGAVERK_BUNDLE + (size_t)over, NULL, 0, NULL, 0).answer.number != too_long) return 1;
        note(DULGAVERK_FORMULA + (size_t)over);
        if (dulgaverk_print(file, DULGAVERK_FORMULA + (size_t)over, NULL, 0).answer.number != too_long) return 2;
        note(DULGAVERK_PROOF + (size_t)over);
        if (dulgaverk_turn_proof(file, DULGAVERK_PROOF + (size_t)over, 1, NULL, 0).answer.number != too_long) return 3;
        if (dulgaverk_test(formula, sizeof formula, &high, 1).answer.number != range) return 4;
        if (dulgaverk_test(formula, sizeof formula, &low, 1).answer.number != range) return 5;
    }
    return 0;
}

/* 0 <= 0, 0 = 0 and 0 != 0, as bundles of one constraint. */
static int kinds(void) {
    static const uint8_t of[] = {DULGAVERK_INEQUALITY, DULGAVERK_EQUALITY, DULGAVERK_DISEQUALITY};
    static const int32_t numbers[] = {0, 0};
    for (uint8_t i = 0; i < 3; i++) {
        if (dulgaverk_write(DULGAVERK_EDITION_1, 1, of + i, 1, numbers, 2, out, sizeof out).answer.number) return 6;
        if (out[8] != 3 + i) return 7;
    }
    return 0;
}

/* 1 <= 0, closed by number, as a run of one stage. */
static void *run(void *nothing) {
    static const uint8_t stage[] = {1, 0, 1, 1, 2, 0, 1, 1, 3, 0, 4, 0, 0, 0, 1};
    static const uint8_t proof[] = {1, 0, 1, 1, 2, 0, 1, 1, 0x14, 0, 1, 0};
    size_t length = sizeof stage, sizes[2];
    dulgaverk_write_result r =
        dulgaverk_guards(stage, sizeof stage, &length, 1, proof, sizeof proof, out, sizeof out, sizes, 2);
    _exit(r.answer.number == DULGAVERK_ACCEPTED && r.count == 38 ? 0 : 1);
    return nothing;
}

/* How a process ends that makes the guards of a run on a thread with so much stack. */
static int on_stack(size_t size) {
    int status = 0;
    pid_t child = fork();
    if (child == 0) {
        pthread_attr_t attributes;
        pthread_t thread;
        pthread_attr_init(&attributes);
        if (pthread_attr_setstacksize(&attributes, size) || pthread_create(&thread, &attributes, run, NULL)) _exit(2);
        pthread_join(thread, NULL);
        _exit(3);
    }
    waitpid(child, &status, 0);
    return status;
}

int main(void) {
    int little = on_stack(64 * 1024), enough = on_stack(224 * 1024);
    int failed = limits() + kinds();
    for (size_t number = 0; number <= 36; number++) puts(dulgaverk_meaning(number));
    if (strcmp(dulgaverk_meaning(SIZE_MAX), "no refusal")) return 8;
    if (!WIFEXITED(enough) || WEXITSTATUS(enough)) return 9;
    if (!WIFSIGNALED(little) || WTERMSIG(little) != SIGSEGV) return 10;
    return failed;
}
