/* What one lock request costs in Berkeley DB's lock manager. lock_get KIND ROUNDS asks 30 requests of a kind and releases what was granted, that many
   times over, and prints the nanoseconds of a request and of a release. With a minus sign as third argument nothing is asked. benchmarks/lock_get
   tells the difference of the two, also under callgrind, which then counts within ask_all or release_all only. */
#include "berkeley.h"
#include <time.h>

enum { REQUESTS = 30 };

static struct { u_int32_t locker; uint8_t instrument; db_lockmode_t mode; int result; } requests[REQUESTS];
static int results[REQUESTS];
static DB_LOCK locks[REQUESTS];

/* The bench of benchmarks/cost: 24 actions, four deep, all running: tops 0 and 1, each other number k under (k - 2) / 2; the last twelve, which
   have no children, write the instruments 0 to 29. */
static void fill(DB_TXN *transaction[24]) {
    for (int k = 0; k < 24; k++)
        must(environment->txn_begin(environment, k < 2 ? NULL : transaction[(k - 2) / 2], &transaction[k], 0), "txn_begin");
    for (int i = 0; i < 30; i++) {
        DB_TXN *owner = transaction[12 + i % 12];
        must(ask(owner->id(owner), (uint8_t)i, DB_LOCK_WRITE, &locks[0]), "lock_get");
    }
}

static void choose(char kind, DB_TXN *transaction[24]) {
    for (int n = 0; n < REQUESTS; n++) {
        int owner = 12 + n % 12, asker = owner, instrument = 30 + n;
        if (kind == '3') asker = owner ^ 1; /* numbers 2 k and 2 k + 1 are siblings */
        if (kind == '3' || kind == '4') instrument = n;
        if (kind == '5') asker = n % 11;
        requests[n].locker = transaction[asker]->id(transaction[asker]);
        requests[n].instrument = (uint8_t)instrument;
        requests[n].mode = kind == '1' ? DB_LOCK_READ : DB_LOCK_WRITE;
        requests[n].result = kind == '3' ? DB_LOCK_NOTGRANTED : 0;
    }
}

__attribute__((noipa)) void ask_all(int asking) {
    for (int n = 0; n < REQUESTS; n++)
        results[n] = asking ? ask(requests[n].locker, requests[n].instrument, requests[n].mode, &locks[n]) : requests[n].result;
}

__attribute__((noipa)) void release_all(int asking) {
    for (int n = 0; n < REQUESTS; n++)
        if (asking && !results[n]) must(environment->lock_put(environment, &locks[n]), "lock_put");
}

static void hold_to_expected(void) {
    for (int n = 0; n < REQUESTS; n++)
        if (results[n] != requests[n].result) {
            fprintf(stderr, "request %d: %s, expected %s\n", n, db_strerror(results[n]), db_strerror(requests[n].result));
            exit(1);
        }
}

static double now(void) {
    struct timespec t;
    clock_gettime(CLOCK_MONOTONIC, &t);
    return (double)t.tv_sec * 1e9 + (double)t.tv_nsec;
}

int main(int argc, char **argv) {
    DB_TXN *transaction[24];
    double asked = 0, released = 0;
    int rounds, asking;
    if (argc < 3) return 2;
    rounds = atoi(argv[2]);
    asking = argc == 3;
    open_environment();
    fill(transaction);
    choose(argv[1][0], transaction);
    for (int k = 0; k < rounds; k++) {
        double start = now(), middle, end;
        ask_all(asking);
        middle = now();
        release_all(asking);
        end = now();
        hold_to_expected();
        asked += middle - start;
        released += end - middle;
    }
    printf("%.1f %.1f\n", asked / rounds / REQUESTS, released / rounds / REQUESTS);
    return 0;
}
