/* Plays the lists of a text (tests/lists_model.py says how it is written), each in one call, and writes a line for each: the answers, or a sum of all that the call
   leaves.

       lists answers|sums <text */
#include <inttypes.h>
#include <stdio.h>
#include <stdlib.h>
#include <string.h>

#include "dikothelm.h"

#define LONGEST_READ 65536

static void stop(const char *why) {
    fprintf(stderr, "lists: %s\n", why);
    exit(2);
}

/* A request by its kind and two numbers, as a list of one. */
static void play_one(dikothelm_bench *bench, uint32_t kind, uint32_t x, uint32_t y) {
    dikothelm_request one = {kind, x, y, 0};
    if (dikothelm_list(bench, &one, 1) != DIKOTHELM_ACCEPTED) stop("a list of one was not played");
}

static uint64_t folded(uint64_t total, uint64_t value) { return (total * 31 + value) % 4294967291u; }

/* The sum of the call's answer, the four numbers of each record, and the bench: numbers one by one, then instruments, each word's lower half first. */
static uint64_t sum_of(const dikothelm_bench *bench, const dikothelm_request *list, size_t count, unsigned answer) {
    uint64_t total = folded(0, answer);
    for (size_t k = 0; k < count; k++) {
        total = folded(folded(total, list[k].kind), list[k].x);
        total = folded(folded(total, list[k].y), list[k].answer);
    }
    for (size_t n = 0; n < DIKOTHELM_ACTIONS; n++) total = folded(folded(total, bench->actions[n]), bench->actions[DIKOTHELM_ACTIONS + n]);
    for (size_t i = 0; i < DIKOTHELM_INSTRUMENTS; i++) {
        for (size_t mode = 0; mode < 2; mode++) {
            uint64_t set = bench->owners[mode * DIKOTHELM_INSTRUMENTS + i];
            total = folded(folded(total, set & 0xffffffffu), set >> 32);
        }
    }
    return total;
}

static void write_answers(const dikothelm_request *list, size_t count, unsigned answer) {
    printf("%02x", answer);
    if (answer == DIKOTHELM_ACCEPTED) {
        for (size_t k = 0; k < count; k++) printf(" %02" PRIx32, list[k].answer);
    }
    printf("\n");
}

/* A list of so many records from the input, played in one call. */
static void play_next(dikothelm_bench *bench, size_t count, int sums) {
    static dikothelm_request list[LONGEST_READ];
    unsigned answer;
    if (count > LONGEST_READ) stop("a list is longer than this program reads");
    for (size_t k = 0; k < count; k++) {
        dikothelm_request *q = &list[k];
        if (scanf("%" SCNx32 " %" SCNx32 " %" SCNx32 " %" SCNx32, &q->kind, &q->x, &q->y, &q->answer) != 4) stop("a record of a list is missing");
    }
    answer = (unsigned)dikothelm_list(bench, list, count);
    if (sums) {
        printf("%08" PRIx64 "\n", sum_of(bench, list, count, answer));
    } else {
        write_answers(list, count, answer);
    }
}

int main(int argc, char **argv) {
    dikothelm_bench bench;
    char what[2];
    int sums = argc == 2 && strcmp(argv[1], "sums") == 0;
    if (!sums && !(argc == 2 && strcmp(argv[1], "answers") == 0)) stop("answers or sums?");
    dikothelm_empty(&bench);
    while (scanf("%1s", what) == 1) {
        uint32_t a = 0, b = 0, c = 0;
        if (what[0] == 'e') {
            dikothelm_empty(&bench);
        } else if (what[0] == 't') {
            if (scanf("%" SCNx32 " %" SCNx32 " %" SCNx32, &a, &b, &c) != 3) stop("a request is not whole");
            play_one(&bench, a, b, c);
        } else if (what[0] == 'l') {
            if (scanf("%" SCNx32, &a) != 1) stop("a list without its length");
            play_next(&bench, a, sums);
        } else {
            if (scanf("%" SCNx32 " %" SCNx32, &a, &b) != 2) stop("a change is not whole");
            if (what[0] == 'p' && a < DIKOTHELM_ACTIONS && b < 256) {
                bench.actions[a] = (uint8_t)b;
            } else if (what[0] == 's' && a < DIKOTHELM_ACTIONS && b < 256) {
                bench.actions[DIKOTHELM_ACTIONS + a] = (uint8_t)b;
            } else if (what[0] == 'r' && a < DIKOTHELM_INSTRUMENTS && b < DIKOTHELM_ACTIONS) {
                bench.owners[a] |= (uint64_t)1 << b;
            } else if (what[0] == 'w' && a < DIKOTHELM_INSTRUMENTS && b < DIKOTHELM_ACTIONS) {
                bench.owners[DIKOTHELM_INSTRUMENTS + a] |= (uint64_t)1 << b;
            } else {
                stop("an unknown line");
            }
        }
    }
    if (ferror(stdin) || fflush(stdout) != 0) stop("input or output failed");
    return 0;
}
