/* What a request costs through the C boundary, its soundness test included, on the benches of crates/cost. `benchmarks/boundary` builds and runs it.

   boundary count KIND    1,000 requests of a kind, for an instruction count; with a minus sign after the kind none is made
   boundary time KIND     nanoseconds a request: the best of many rounds of 1,000, what the same rounds cost without requests taken off */
#define _POSIX_C_SOURCE 199309L
#include <stdio.h>
#include <string.h>
#include <time.h>

#include "dikothelm.h"

enum { REQUESTS = 1000, ROUNDS = 400 };

/* 24 actions, four deep, that hold 30 instruments: tops 0 and 1, each other number k under (k - 2) / 2. */
static void busy(dikothelm_bench *bench) {
    uint32_t k;
    dikothelm_empty(bench);
    dikothelm_open_top(bench, 0);
    dikothelm_open_top(bench, 1);
    for (k = 2; k < 24; k++) dikothelm_open_sub(bench, k, (k - 2) / 2);
    for (k = 0; k < 30; k++) dikothelm_write(bench, 12 + k % 12, k);
}

/* A chain of 64 actions with falling numbers, so that every parent has a higher number than its child. */
static void deep(dikothelm_bench *bench) {
    uint32_t k;
    dikothelm_empty(bench);
    dikothelm_open_top(bench, 63);
    for (k = 0; k < 63; k++) dikothelm_open_sub(bench, 62 - k, 63 - k);
}

/* The busy bench with its owners aborted: each of 12 to 23 drains at the two or three instruments that are it less 12, and so on in twelves. */
static void draining(dikothelm_bench *bench) {
    uint32_t k;
    busy(bench);
    for (k = 12; k < 24; k++) dikothelm_abort(bench, k);
}

/* The same with only the first instrument of each left. */
static void nearly_quiet(dikothelm_bench *bench) {
    uint32_t k;
    draining(bench);
    for (k = 12; k < 30; k++) dikothelm_quiet(bench, 12 + k % 12, k);
}

static unsigned one(dikothelm_bench *bench, char kind, uint32_t n) {
    switch (kind) {
    case '0': return dikothelm_sound(bench);
    case '1': return dikothelm_open_top(bench, 30 + n % 30);
    case '2': return dikothelm_open_sub(bench, 30 + n % 30, 12);
    case '3': return dikothelm_read(bench, 12 + n % 12, n % 128);
    case '4': return dikothelm_write(bench, 12 + n % 12, n % 128);
    case '5': return dikothelm_commit(bench, 12 + n % 12);
    case '6': return dikothelm_abort(bench, 12 + n % 12);
    case '7': return dikothelm_abort(bench, 2 + n % 4);
    case '8': return dikothelm_abort(bench, n % 2);
    case 'a':
    case 'b': return dikothelm_quiet(bench, 12 + n % 12, n % 12);
    default: return dikothelm_write(bench, 0, n % 128);
    }
}

/* Stands in for `one` where no request is made. */
static unsigned none(dikothelm_bench *bench, char kind, uint32_t n) {
    return bench->actions[n % 128] + (unsigned)kind;
}

/* Each request is asked of the same bench, so it is copied before each. */
static unsigned requests(const dikothelm_bench *from, unsigned (*asked)(dikothelm_bench *, char, uint32_t), char kind) {
    static dikothelm_bench bench;
    unsigned sum = 0;
    uint32_t n;
    for (n = 0; n < REQUESTS; n++) {
        memcpy(&bench, from, sizeof bench);
        sum += asked(&bench, kind, n);
    }
    return sum;
}

static double now(void) {
    struct timespec t;
    clock_gettime(CLOCK_MONOTONIC, &t);
    return (double)t.tv_sec * 1e9 + (double)t.tv_nsec;
}

static double best(const dikothelm_bench *from, unsigned (*volatile asked)(dikothelm_bench *, char, uint32_t), char kind, unsigned *sum) {
    double least = 1e18;
    int round;
    for (round = 0; round < ROUNDS; round++) {
        double start = now(), spent;
        *sum += requests(from, asked, kind);
        spent = now() - start;
        if (spent < least) least = spent;
    }
    return least / REQUESTS;
}

int main(int words, char **word) {
    static dikothelm_bench from;
    unsigned (*volatile asked)(dikothelm_bench *, char, uint32_t) = one;
    unsigned sum = 0;
    if (words != 3) {
        fputs("usage: boundary count|time KIND\n", stderr);
        return 2;
    }
    if (word[2][0] == '9') deep(&from);
    else if (word[2][0] == 'a') draining(&from);
    else if (word[2][0] == 'b') nearly_quiet(&from);
    else busy(&from);
    if (strcmp(word[1], "time") == 0) {
        double with = best(&from, one, word[2][0], &sum), without = best(&from, none, word[2][0], &sum);
        printf("%.0f\n", with - without);
    } else {
        if (word[2][1] == '-') asked = none;
        printf("%u\n", requests(&from, asked, word[2][0]));
    }
    return 0;
}
