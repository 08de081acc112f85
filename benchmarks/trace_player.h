/* What the C players share: lines in, answers out, and the bookkeeping of action numbers from which the answers 1 to 5 and 8 come. Whether a lock is
   granted, who owns what, and what drains, is left to the player that includes this. */
#include <stdint.h>
#include <stdio.h>
#include <string.h>

enum { FREE, RUNNING, COMMITTED, DRAINING };

static uint8_t state[64];
static int8_t parent[64]; /* -1: none */

/* What each player supplies. A number is running and has its parent when it is begun; all of these keep the owners. commit_top makes a and its descendants
   free, abort_family makes them free or draining, and quiet says whether something drained under a at the instrument, and ends it there. */
static void begin(int n);
static int granted(int a, int instrument, int writing);
static void commit_sub(int a);
static void commit_top(int a);
static void abort_family(int a);
static int quiet(int a, int instrument);

/* How many running children each number has. */
static uint8_t running_children[64];

static int has_running_child(int a) { return running_children[a] != 0; }

static int request(int code, int x, int y) {
    switch (code) {
    case 1:
        if (x > 63) return 1;
        if (state[x] != FREE) return 3;
        state[x] = RUNNING;
        begin(x);
        return 0;
    case 2:
        if (x > 63 || y > 63) return 1;
        if (state[x] != FREE) return 3;
        if (state[y] != RUNNING) return 4;
        state[x] = RUNNING;
        parent[x] = (int8_t)y;
        running_children[y]++;
        begin(x);
        return 0;
    case 3:
    case 4:
        if (x > 63) return 1;
        if (y > 127) return 2;
        if (state[x] != RUNNING) return 4;
        if (has_running_child(x)) return 5;
        return granted(x, y, code == 4) ? 0 : 6;
    case 5:
        if (x > 63) return 1;
        if (state[x] != RUNNING) return 4;
        if (has_running_child(x)) return 5;
        if (parent[x] < 0) {
            commit_top(x);
        } else {
            state[x] = COMMITTED;
            running_children[parent[x]]--;
            commit_sub(x);
        }
        return 0;
    case 6:
        if (x > 63) return 1;
        if (state[x] != RUNNING) return 4;
        if (parent[x] >= 0) running_children[parent[x]]--;
        abort_family(x);
        return 0;
    default:
        if (x > 63) return 1;
        if (y > 127) return 2;
        return quiet(x, y) ? 0 : 10;
    }
}

static const char digits[] = "0123456789abcdef";

static int digit(int c) {
    if (c >= '0' && c <= '9') return c - '0';
    if (c >= 'a' && c <= 'f') return c - 'a' + 10;
    return -1;
}

static int answer(const unsigned char *line, int length) {
    int byte[3];
    if (length != 4 && length != 6) return 8;
    for (int k = 0; k < length; k += 2) {
        int high = digit(line[k]), low = digit(line[k + 1]);
        if (high < 0 || low < 0) return 8;
        byte[k / 2] = high * 16 + low;
    }
    if (length == 4) return byte[0] == 1 || byte[0] == 5 || byte[0] == 6 ? request(byte[0], byte[1], 0) : 8;
    return (byte[0] >= 2 && byte[0] <= 4) || byte[0] == 7 ? request(byte[0], byte[1], byte[2]) : 8;
}

static void play(void) {
    static unsigned char input[8192], output[24576], line[8];
    int length = 0;
    size_t n;
    memset(parent, -1, sizeof parent);
    while ((n = fread(input, 1, sizeof input, stdin)) > 0) {
        size_t written = 0;
        for (size_t k = 0; k < n; k++) {
            if (input[k] != '\n') {
                if (length < 7) line[length++] = input[k];
                continue;
            }
            output[written++] = '0';
            output[written++] = (unsigned char)digits[answer(line, length)];
            output[written++] = '\n';
            length = 0;
        }
        if (fwrite(output, 1, written, stdout) != written) return;
    }
    if (length) printf("0%c\n", digits[answer(line, length)]);
}
