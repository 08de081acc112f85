/* A plain hand-written player in set form, for comparison: the same lines in, the same answers out, no proofs. Upward and downward sets are not kept; the
   cover of an asker is worked out when it asks. */
#include "trace_player.h"

static uint64_t readers[128], writers[128];

static uint64_t draining;  /* all numbers that drain */
static uint64_t group[64]; /* of a number that drains under itself, all that drain under it */

static uint64_t line_of(int a) {
    uint64_t line = 0;
    for (; a >= 0; a = parent[a]) line |= 1ull << a;
    return line;
}

/* A draining number's owner is in nobody's line. */
static int covered(int a, uint64_t owners) {
    uint64_t line, rest;
    if (!owners) return 1;
    if (owners & draining) return 0;
    line = line_of(a);
    for (rest = owners & ~line; rest; rest &= rest - 1) {
        int k = __builtin_ctzll(rest);
        while (state[k] != RUNNING) k = parent[k];
        if (!(line >> k & 1)) return 0;
    }
    return 1;
}

static uint64_t family_of(int a) {
    uint64_t set = 1ull << a, old = 0;
    while (set != old) {
        old = set;
        for (int k = 0; k < 64; k++)
            if (parent[k] >= 0 && (set >> parent[k] & 1)) set |= 1ull << k;
    }
    return set;
}

static int stand_in_a_set(uint64_t numbers) {
    for (int i = 0; i < 128; i++)
        if ((readers[i] | writers[i]) & numbers) return 1;
    return 0;
}

/* They leave the tree. */
static void become(uint8_t next, uint64_t numbers) {
    for (; numbers; numbers &= numbers - 1) {
        int k = __builtin_ctzll(numbers);
        state[k] = next, parent[k] = -1, running_children[k] = 0;
    }
}

/* The sets name committed numbers too, so neither opening nor a sub's commit changes them. */
static void begin(int n) { (void)n; }
static void commit_sub(int a) { (void)a; }

static void commit_top(int a) {
    uint64_t gone = family_of(a);
    become(FREE, gone);
    for (int i = 0; i < 128; i++) readers[i] &= ~gone, writers[i] &= ~gone;
}

static void abort_family(int a) {
    uint64_t aborted = family_of(a);
    if (stand_in_a_set(aborted)) {
        become(DRAINING, aborted);
        group[a] = aborted;
        draining |= aborted;
    } else {
        become(FREE, aborted);
    }
}

static int quiet(int a, int instrument) {
    uint64_t left = group[a];
    if (!((readers[instrument] | writers[instrument]) & left)) return 0;
    readers[instrument] &= ~left, writers[instrument] &= ~left;
    if (!stand_in_a_set(left)) {
        become(FREE, left);
        group[a] = 0;
        draining &= ~left;
    }
    return 1;
}

static int granted(int a, int instrument, int writing) {
    if (!covered(a, writing ? writers[instrument] | readers[instrument] : writers[instrument])) return 0;
    (writing ? writers : readers)[instrument] |= 1ull << a;
    return 1;
}

int main(void) {
    play();
    return 0;
}
