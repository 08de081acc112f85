/* What a request costs in a list of 32, its share of the one soundness test included, beside 32 single calls, both through the C boundary. `benchmarks/list`
   builds and runs it.

   list HOW KIND TIMES    the list of a kind so many times, for an instruction count. HOW: `list` in one call, `single` in 32 calls, `none` not at all */
#include <stdio.h>
#include <stdlib.h>
#include <string.h>

#include "dikothelm.h"

enum { MANY = DIKOTHELM_LONGEST_LIST };

/* 24 actions, four deep, that hold 30 instruments: tops 0 and 1, each other number k under (k - 2) / 2. */
static void busy(dikothelm_bench *bench) {
    uint32_t k;
    dikothelm_empty(bench);
    dikothelm_open_top(bench, 0);
    dikothelm_open_top(bench, 1);
    for (k = 2; k < 24; k++) dikothelm_open_sub(bench, k, (k - 2) / 2);
    for (k = 0; k < 30; k++) dikothelm_write(bench, 12 + k % 12, k);
}

/* The busy bench with its owners aborted. */
static void draining(dikothelm_bench *bench) {
    uint32_t k;
    busy(bench);
    for (k = 12; k < 24; k++) dikothelm_abort(bench, k);
}

/* A chain of 64 actions, numbered down from 63 or scattered: its number at a depth. */
static uint32_t chained(uint32_t at, int scattered) {
    return scattered ? (at * 37 + at * at * 32 + 11) % DIKOTHELM_ACTIONS : DIKOTHELM_ACTIONS - 1 - at;
}

/* The chain with all running; or, `committed`, with all but the top committed after each has written instruments 0 to 31. */
static void deep(dikothelm_bench *bench, int scattered, int committed) {
    uint32_t k, i;
    dikothelm_empty(bench);
    dikothelm_open_top(bench, chained(0, scattered));
    for (k = 1; k < DIKOTHELM_ACTIONS; k++) {
        dikothelm_open_sub(bench, chained(k, scattered), chained(k - 1, scattered));
        for (i = 0; committed && i < MANY; i++) dikothelm_write(bench, chained(k, scattered), i);
    }
    for (k = DIKOTHELM_ACTIONS - 1; committed && k > 0; k--) dikothelm_commit(bench, chained(k, scattered));
}

static void request(dikothelm_request *to, uint32_t kind, uint32_t x, uint32_t y) {
    to->kind = kind;
    to->x = x;
    to->y = y;
    to->answer = 99;
}

/* The list of a kind, and the bench that it is played on. */
static void prepare(char kind, dikothelm_bench *bench, dikothelm_request *list) {
    /* one step of a sequence: a sub of 12 takes instruments and commits; or is aborted, and its instruments fall quiet */
    static const uint32_t step[8] = {2, 3, 4, 3, 3, 4, 3, 5}, aborted[8] = {2, 3, 4, 3, 4, 6, 7, 7};
    uint32_t k;
    if (kind == '7') draining(bench);
    else if (kind >= 'a' && kind <= 'd') deep(bench, kind == 'b' || kind == 'd', kind >= 'c');
    else busy(bench);
    if (kind == 'u') bench->owners[0] |= (uint64_t)1 << 63; /* a free number in a set */
    for (k = 0; k < MANY; k++) {
        const uint32_t leaf = 12 + k % 12, fresh = 24 + k, taken = 30 + 7 * k % 90;
        switch (kind) {
        case '1': request(list + k, 1, fresh, 0); break;
        case '2': request(list + k, 2, fresh, 12); break;
        case '3': request(list + k, 3, leaf, 3 * k); break;
        case '4': request(list + k, 4, leaf, 3 * k); break;
        case '5': request(list + k, 5, 23 - k % 24, 0); break;
        case '6': request(list + k, 6, 23 - k % 24, 0); break;
        case '7': request(list + k, 7, leaf, k % 30); break;
        case '8': request(list + k, 8, leaf, 3 * k); break;
        case 'a':
        case 'b': request(list + k, 4, chained(DIKOTHELM_ACTIONS - 1, kind == 'b'), k); break;
        case 'c':
        case 'd': request(list + k, 3, chained(0, kind == 'd'), k); break;
        default: {
            const uint32_t *kinds = kind == 'n' && k >= 24 ? aborted : step;
            const uint32_t code = kinds[k % 8], own = 24 + k / 8;
            request(list + k, code, own, code == 2 ? 12 : taken);
            if (code == 7) list[k].y = list[k - 4].y; /* two of the four that it took */
        }
        }
    }
}

static uint32_t single(dikothelm_bench *bench, const dikothelm_request *one) {
    switch (one->kind) {
    case 1: return dikothelm_open_top(bench, one->x);
    case 2: return dikothelm_open_sub(bench, one->x, one->y);
    case 3: return dikothelm_read(bench, one->x, one->y);
    case 4: return dikothelm_write(bench, one->x, one->y);
    case 5: return dikothelm_commit(bench, one->x);
    case 6: return dikothelm_abort(bench, one->x);
    case 7: return dikothelm_quiet(bench, one->x, one->y);
    default: return DIKOTHELM_MALFORMED;
    }
}

/* Each list is played on the same bench, so both are copied before each. */
int main(int words, char **word) {
    static dikothelm_bench from, bench;
    static dikothelm_request sent[MANY], list[MANY];
    unsigned k;
    long times;
    if (words != 4) {
        fputs("usage: list list|single|none KIND TIMES\n", stderr);
        return 2;
    }
    prepare(word[2][0], &from, sent);
    for (times = atol(word[3]); times > 0; times--) {
        memcpy(&bench, &from, sizeof bench);
        memcpy(list, sent, sizeof list);
        if (word[1][0] == 'l') dikothelm_list(&bench, list, MANY);
        for (k = 0; word[1][0] == 's' && k < MANY; k++) list[k].answer = single(&bench, list + k);
    }
    for (k = 0; k < MANY; k++) printf("%u%c", (unsigned)list[k].answer, k + 1 < MANY ? ' ' : '\n');
    return 0;
}
