/* The header's functions, in C and in C++: the whole case, draining, what only looks at a bench, saving, playing and ending the input at their edges, lines
   that look right and aren't, lists beside single calls, records of other lengths, and NULL with length 0. */
#include "dikothelm.h"
#include "dikothelm.h" /* twice does no harm */

#include <stdio.h>
#include <string.h>

static int failed = 0;

static void same(const char *what, int line, unsigned long long got, unsigned long long expected) {
    if (got == expected) return;
    printf("line %d: %s is %llu, not %llu\n", line, what, got, expected);
    failed = 1;
}

#define SAME(got, expected) same(#got, __LINE__, (unsigned long long)(got), (unsigned long long)(expected))

static void the_whole_case(void) {
    dikothelm_bench bench, before;
    memset(&bench, 0x5a, sizeof bench);
    SAME(dikothelm_sound(&bench), 7);
    SAME(dikothelm_open_top(&bench, 1), 7);
    SAME(dikothelm_empty(&bench), 0);
    SAME(dikothelm_sound(&bench), 0);
    SAME(dikothelm_open_top(&bench, 1), 0);
    SAME(dikothelm_open_sub(&bench, 2, 1), 0);
    SAME(dikothelm_open_sub(&bench, 3, 1), 0);
    SAME(dikothelm_write(&bench, 2, 5), 0);
    before = bench;
    SAME(dikothelm_read(&bench, 3, 5), DIKOTHELM_NOT_GRANTED);
    SAME(memcmp(&bench, &before, sizeof bench), 0);
    SAME(dikothelm_commit(&bench, 2), 0);
    SAME(dikothelm_read(&bench, 3, 5), 0);
    SAME(dikothelm_write(&bench, 3, 5), 0);
    SAME(dikothelm_commit(&bench, 1), DIKOTHELM_RUNNING_CHILD);
    SAME(dikothelm_abort(&bench, 3), 0);
    before = bench;
    SAME(dikothelm_write(&bench, 1, 5), DIKOTHELM_NOT_GRANTED);
    SAME(memcmp(&bench, &before, sizeof bench), 0);
    SAME(dikothelm_commit(&bench, 1), 0);
    SAME(dikothelm_state(&bench, 3), DIKOTHELM_DRAINING);
    SAME(dikothelm_open_top(&bench, 3), DIKOTHELM_NOT_FREE);
    SAME(dikothelm_quiet(&bench, 3, 5), 0);
    memset(&before, 0, sizeof before);
    SAME(memcmp(&bench, &before, sizeof bench), 0);
}

/* 2 and what was opened under it drain together until both of their instruments are quiet; 1 is in the tree alone. */
static void draining(void) {
    dikothelm_bench bench, before;
    dikothelm_empty(&bench);
    dikothelm_open_top(&bench, 1);
    dikothelm_open_sub(&bench, 2, 1);
    dikothelm_open_sub(&bench, 63, 2);
    dikothelm_open_sub(&bench, 4, 2);
    dikothelm_write(&bench, 63, 5);
    dikothelm_read(&bench, 63, 127);
    dikothelm_commit(&bench, 63);
    before = bench;
    SAME(dikothelm_quiet(&bench, 2, 5), DIKOTHELM_NOT_DRAINING); /* it runs */
    SAME(memcmp(&bench, &before, sizeof bench), 0);
    SAME(dikothelm_abort(&bench, 2), 0);
    SAME(dikothelm_sound(&bench), 0);
    SAME(dikothelm_state(&bench, 1), DIKOTHELM_RUNNING);
    SAME(dikothelm_state(&bench, 2), DIKOTHELM_DRAINING);
    SAME(dikothelm_state(&bench, 4), DIKOTHELM_DRAINING);
    SAME(dikothelm_state(&bench, 63), DIKOTHELM_DRAINING);
    SAME(bench.actions[DIKOTHELM_ACTIONS + 63], DIKOTHELM_DRAINING + 2);
    SAME(dikothelm_head(&bench, 1), -1);
    SAME(dikothelm_head(&bench, 2), 2);
    SAME(dikothelm_head(&bench, 63), 2);
    SAME(dikothelm_head(&bench, 64), -1);
    SAME(dikothelm_parent(&bench, 2), -1);
    SAME(dikothelm_parent(&bench, 63), -1);
    SAME(dikothelm_heir(&bench, 63), 2);
    SAME(dikothelm_writers(&bench, 5), (uint64_t)1 << 63);
    SAME(dikothelm_heirs(&bench, dikothelm_writers(&bench, 5)), 4);
    SAME(dikothelm_read(&bench, 1, 5), DIKOTHELM_NOT_GRANTED);
    SAME(dikothelm_read(&bench, 1, 127), 0);
    SAME(dikothelm_write(&bench, 1, 127), DIKOTHELM_NOT_GRANTED);
    SAME(dikothelm_open_sub(&bench, 9, 2), DIKOTHELM_NOT_RUNNING);
    SAME(dikothelm_abort(&bench, 2), DIKOTHELM_NOT_RUNNING);
    before = bench;
    SAME(dikothelm_quiet(&bench, 63, 5), DIKOTHELM_NOT_DRAINING); /* it drains under 2 */
    SAME(dikothelm_quiet(&bench, 2, 6), DIKOTHELM_NOT_DRAINING);
    SAME(dikothelm_quiet(&bench, 2, 128), DIKOTHELM_NO_SUCH_INSTRUMENT);
    SAME(dikothelm_quiet(&bench, 64, 128), DIKOTHELM_NO_SUCH_ACTION);
    SAME(dikothelm_quiet(&bench, 256 + 2, 5), DIKOTHELM_NO_SUCH_ACTION);
    SAME(memcmp(&bench, &before, sizeof bench), 0);
    SAME(dikothelm_quiet(&bench, 2, 5), 0);
    SAME(dikothelm_state(&bench, 4), DIKOTHELM_DRAINING);
    SAME(dikothelm_write(&bench, 1, 5), 0);
    SAME(dikothelm_quiet(&bench, 2, 127), 0);
    SAME(dikothelm_state(&bench, 4), DIKOTHELM_FREE);
    SAME(dikothelm_quiet(&bench, 2, 127), DIKOTHELM_NOT_DRAINING);
    SAME(dikothelm_open_sub(&bench, 63, 1), 0);
    SAME(dikothelm_abort(&bench, 63), 0); /* it owns nothing */
    SAME(dikothelm_state(&bench, 63), DIKOTHELM_FREE);
}

static void numbers_at_the_edges(void) {
    dikothelm_bench bench;
    dikothelm_empty(&bench);
    SAME(dikothelm_version(), 1024);
    SAME(DIKOTHELM_VERSION, 1024);
    SAME(DIKOTHELM_ACTIONS, 64);
    SAME(DIKOTHELM_INSTRUMENTS, 128);
    SAME(DIKOTHELM_LONGEST_LIST, 32);
    SAME(sizeof(dikothelm_request), 16);
    SAME(sizeof bench, 128 + 256 * 8);
    SAME(dikothelm_open_top(&bench, 63), 0);
    SAME(dikothelm_open_top(&bench, 64), 1);
    SAME(dikothelm_open_top(&bench, 0xffffffffu), 1);
    SAME(dikothelm_open_top(&bench, 63), 3);
    SAME(dikothelm_open_sub(&bench, 7, 7), 4);
    SAME(dikothelm_open_sub(&bench, 63, 64), 1);
    SAME(dikothelm_read(&bench, 63, 127), 0);
    SAME(dikothelm_read(&bench, 63, 128), 2);
    SAME(dikothelm_write(&bench, 64, 128), 1);
    SAME(dikothelm_write(&bench, 0, 0), 4);
    SAME(dikothelm_commit(&bench, 256 + 63), 1);
    SAME(dikothelm_abort(&bench, 64), 1);
    SAME(dikothelm_abort(&bench, 0), 4);
    SAME(dikothelm_quiet(&bench, 64, 128), 1);
    SAME(dikothelm_quiet(&bench, 0, 128), 2);
    SAME(dikothelm_quiet(&bench, 0, 0xffffffffu), 2);
    SAME(dikothelm_quiet(&bench, 63, 127), 10);
}

static void looking_at_a_bench(void) {
    dikothelm_bench bench;
    dikothelm_empty(&bench);
    dikothelm_open_top(&bench, 1);
    dikothelm_open_sub(&bench, 2, 1);
    dikothelm_open_sub(&bench, 63, 1);
    dikothelm_write(&bench, 2, 0);
    dikothelm_read(&bench, 2, 127);
    dikothelm_read(&bench, 63, 127);
    dikothelm_commit(&bench, 2);
    SAME(dikothelm_state(&bench, 0), DIKOTHELM_FREE);
    SAME(dikothelm_state(&bench, 1), DIKOTHELM_RUNNING);
    SAME(dikothelm_state(&bench, 2), DIKOTHELM_COMMITTED);
    SAME(dikothelm_state(&bench, 63), DIKOTHELM_RUNNING);
    SAME(dikothelm_state(&bench, 64), DIKOTHELM_FREE);
    SAME(dikothelm_parent(&bench, 0), -1);
    SAME(dikothelm_parent(&bench, 1), -1);
    SAME(dikothelm_parent(&bench, 2), 1);
    SAME(dikothelm_parent(&bench, 64), -1);
    SAME(dikothelm_writers(&bench, 0), 4);
    SAME(dikothelm_readers(&bench, 0), 0);
    SAME(dikothelm_readers(&bench, 127), (uint64_t)1 << 63 | 4);
    SAME(dikothelm_readers(&bench, 128), 0);
    SAME(dikothelm_writers(&bench, 128), 0);
    SAME(dikothelm_heir(&bench, 1), 1);
    SAME(dikothelm_heir(&bench, 2), 1);
    SAME(dikothelm_heir(&bench, 3), -1);
    SAME(dikothelm_heir(&bench, 64), -1);
    SAME(dikothelm_heirs(&bench, dikothelm_readers(&bench, 127)), (uint64_t)1 << 63 | 2);
    memset(&bench, 3, sizeof bench); /* parents that run round */
    SAME(dikothelm_heir(&bench, 5), 0); /* all drain under 0 */
    memset(bench.actions + DIKOTHELM_ACTIONS, DIKOTHELM_COMMITTED, DIKOTHELM_ACTIONS);
    SAME(dikothelm_heir(&bench, 5), -1);
    bench.actions[DIKOTHELM_ACTIONS + 5] = 66;
    SAME(dikothelm_state(&bench, 5), DIKOTHELM_DRAINING);
    SAME(dikothelm_head(&bench, 5), 63);
    bench.actions[DIKOTHELM_ACTIONS + 5] = 67; /* a state that means nothing */
    SAME(dikothelm_state(&bench, 5), 67);
    SAME(dikothelm_head(&bench, 5), -1);
    memset(&bench, 255, sizeof bench);
    SAME(dikothelm_state(&bench, 5), 255);
    SAME(dikothelm_head(&bench, 5), -1);
    SAME(dikothelm_parent(&bench, 5), 254);
    SAME(dikothelm_heir(&bench, 5), -1);
    SAME(dikothelm_heirs(&bench, ~(uint64_t)0), 0);
}

static void saved_and_loaded(void) {
    static const char text[] = "110101ff\n11020201\n11030304\n11040304\n12050000000000000008000000000000000c\n";
    const size_t length = sizeof text - 1;
    dikothelm_bench bench, loaded, empty;
    uint8_t out[DIKOTHELM_LONGEST_TEXT];
    size_t count = 77;
    dikothelm_empty(&empty);
    dikothelm_empty(&bench);
    dikothelm_open_top(&bench, 1);
    dikothelm_open_sub(&bench, 2, 1);
    dikothelm_write(&bench, 2, 5);
    dikothelm_commit(&bench, 2);
    dikothelm_open_sub(&bench, 4, 1);
    dikothelm_open_sub(&bench, 3, 4);
    dikothelm_read(&bench, 3, 5);
    dikothelm_write(&bench, 3, 5);
    dikothelm_abort(&bench, 4);
    memset(out, 0xaa, sizeof out);
    SAME(dikothelm_save(&bench, out, length - 1, &count), DIKOTHELM_NO_ROOM);
    SAME(count, 0);
    SAME(out[0], 0xaa);
    SAME(dikothelm_save(&bench, out, length, &count), 0);
    SAME(count, length);
    SAME(memcmp(out, text, length), 0);
    SAME(out[length], 0xaa);
    memset(&loaded, 0x5a, sizeof loaded);
    SAME(dikothelm_load(&loaded, (const uint8_t *)text, length), 0);
    SAME(memcmp(&loaded, &bench, sizeof bench), 0);
    SAME(dikothelm_load(&loaded, (const uint8_t *)text, length - 1), DIKOTHELM_MALFORMED);
    SAME(memcmp(&loaded, &empty, sizeof empty), 0);
    memset(&loaded, 0x5a, sizeof loaded);
    SAME(dikothelm_load(&loaded, (const uint8_t *)text + 9, length - 9), DIKOTHELM_UNSOUND); /* 2 without its parent */
    SAME(memcmp(&loaded, &empty, sizeof empty), 0);
    memset(&loaded, 0x5a, sizeof loaded);
    count = 77;
    SAME(dikothelm_save(&loaded, out, 0, &count), DIKOTHELM_UNSOUND);
    SAME(count, 0);
}

/* The sizes of texts, which are the counts of saves. */
static void text_is(const char *what, const dikothelm_bench *bench, enum dikothelm_answer answer, size_t size) {
    static uint8_t out[DIKOTHELM_LONGEST_TEXT];
    const dikothelm_bench before = *bench;
    size_t count = 77, saved = 77;
    if (dikothelm_text_size(bench, &count) != answer || count != size || dikothelm_save(bench, out, sizeof out, &saved) != answer || saved != size) {
        printf("%s: the text's size is %lu, saved %lu\n", what, (unsigned long)count, (unsigned long)saved);
        failed = 1;
    }
    if (answer == 0 && size > 0) SAME(dikothelm_save(bench, out, size - 1, &saved), DIKOTHELM_NO_ROOM);
    SAME(memcmp(bench, &before, sizeof before), 0);
}

static void text_sizes(void) {
    dikothelm_bench bench, broken;
    uint32_t k;
    memset(&bench, 0, sizeof bench);
    text_is("the empty bench", &bench, DIKOTHELM_ACCEPTED, 0);
    dikothelm_open_top(&bench, 63);
    text_is("one action", &bench, DIKOTHELM_ACCEPTED, 9);
    dikothelm_open_sub(&bench, 0, 63);
    dikothelm_commit(&bench, 0);
    text_is("a committed action", &bench, DIKOTHELM_ACCEPTED, 2 * 9);
    dikothelm_write(&bench, 63, 127);
    text_is("a write set", &bench, DIKOTHELM_ACCEPTED, 2 * 9 + 37);
    dikothelm_read(&bench, 63, 127);
    text_is("both sets of one instrument", &bench, DIKOTHELM_ACCEPTED, 2 * 9 + 37);
    dikothelm_read(&bench, 63, 0);
    text_is("two instruments", &bench, DIKOTHELM_ACCEPTED, 2 * 9 + 2 * 37);
    broken = bench;
    broken.actions[DIKOTHELM_ACTIONS + 63] = DIKOTHELM_COMMITTED;
    text_is("a committed top action", &broken, DIKOTHELM_UNSOUND, 0);
    broken = bench;
    broken.actions[5] = 1 + 63;
    text_is("a free number with a parent", &broken, DIKOTHELM_UNSOUND, 0);
    broken = bench;
    broken.owners[7] = (uint64_t)1 << 5;
    text_is("a free number in a set", &broken, DIKOTHELM_UNSOUND, 0);
    broken = bench;
    broken.actions[0] = 1 + 5;
    text_is("a free parent", &broken, DIKOTHELM_UNSOUND, 0);
    broken = bench;
    broken.actions[63] = 1 + 0;
    text_is("parents that run round", &broken, DIKOTHELM_UNSOUND, 0);
    broken = bench;
    broken.actions[1] = 1 + 0;
    broken.actions[DIKOTHELM_ACTIONS + 1] = DIKOTHELM_RUNNING;
    text_is("a running action under a committed one", &broken, DIKOTHELM_UNSOUND, 0);
    broken = bench;
    broken.actions[0] = 65;
    text_is("a parent above 63", &broken, DIKOTHELM_UNSOUND, 0);
    broken = bench;
    broken.actions[DIKOTHELM_ACTIONS + 0] = 67;
    text_is("a state that means nothing", &broken, DIKOTHELM_UNSOUND, 0);
    broken = bench;
    broken.actions[DIKOTHELM_ACTIONS + 5] = DIKOTHELM_DRAINING + 5;
    text_is("a draining number in no set", &broken, DIKOTHELM_UNSOUND, 0);
    broken.owners[7] = (uint64_t)1 << 5;
    text_is("a draining number in a set", &broken, DIKOTHELM_ACCEPTED, 3 * 9 + 3 * 37);
    broken.actions[5] = 1 + 63;
    text_is("a draining number with a parent", &broken, DIKOTHELM_UNSOUND, 0);
    broken.actions[5] = 0;
    broken.actions[DIKOTHELM_ACTIONS + 5] = DIKOTHELM_DRAINING + 63;
    text_is("a number that drains under a running one", &broken, DIKOTHELM_UNSOUND, 0);
    broken.actions[DIKOTHELM_ACTIONS + 5] = DIKOTHELM_DRAINING + 6;
    text_is("a number that drains under a free one", &broken, DIKOTHELM_UNSOUND, 0);
    broken.actions[DIKOTHELM_ACTIONS + 6] = DIKOTHELM_DRAINING + 6;
    text_is("a group that drains under its head", &broken, DIKOTHELM_ACCEPTED, 4 * 9 + 3 * 37);
    broken.actions[8] = 1 + 6;
    broken.actions[DIKOTHELM_ACTIONS + 8] = DIKOTHELM_RUNNING;
    text_is("a running action under a draining one", &broken, DIKOTHELM_UNSOUND, 0);
    memset(&bench, 0, sizeof bench);
    for (k = 0; k < DIKOTHELM_ACTIONS; k++) dikothelm_open_top(&bench, k);
    for (k = 0; k < DIKOTHELM_INSTRUMENTS; k++) dikothelm_write(&bench, k / 2, k);
    text_is("the longest text", &bench, DIKOTHELM_ACCEPTED, DIKOTHELM_LONGEST_TEXT);
}

/* Plays a trace to its end, lending at each call `room` bytes, at least 3 and at most 600, for the answers, and returns how many bytes of answers came. */
static size_t play_whole(dikothelm_bench *bench, const uint8_t *trace, size_t length, size_t room, uint8_t *said) {
    uint64_t progress[DIKOTHELM_PROGRESS] = {0, 0, 0, 0};
    uint8_t out[600 + 1];
    size_t at = 0, written = 0, k;
    int ended = 0;
    while (!ended) {
        const size_t fits = room / 3 < length - at ? room / 3 : length - at;
        memset(out, 0xaa, sizeof out);
        if (at < length) {
            SAME(dikothelm_play(bench, progress, trace + at, length - at, out, room), 0);
            SAME(progress[DIKOTHELM_TAKEN], fits);
            SAME(progress[DIKOTHELM_DIGITS] == 0, trace[at + fits - 1] == '\n');
        } else {
            const int begun = length > 0 && trace[length - 1] != '\n';
            SAME(dikothelm_finish(bench, progress, out, room), 0);
            SAME(progress[DIKOTHELM_TAKEN], 0);
            SAME(progress[DIKOTHELM_WRITTEN], begun ? 3 : 0);
            SAME(progress[DIKOTHELM_DIGITS], 0);
            ended = 1;
        }
        at += fits;
        memcpy(said + written, out, (size_t)progress[DIKOTHELM_WRITTEN]);
        written += (size_t)progress[DIKOTHELM_WRITTEN];
        for (k = (size_t)progress[DIKOTHELM_WRITTEN]; k < sizeof out; k++)
            if (out[k] != 0xaa) SAME(k, sizeof out);
        if (failed) return written;
    }
    return written;
}

/* A trace from an empty bench, with so much room at each call. */
static void played_with_room(size_t room) {
    static const char trace[] = "0101\n020201\n020301\n040205\n030305\nxx\n\n0702\n070205\n0602\n070205\n030305";
    static const char expected[] = "00\n00\n00\n00\n06\n08\n08\n08\n0a\n00\n00\n00\n";
    dikothelm_bench bench;
    uint8_t said[64];
    dikothelm_empty(&bench);
    SAME(play_whole(&bench, (const uint8_t *)trace, sizeof trace - 1, room, said), sizeof expected - 1);
    SAME(memcmp(said, expected, sizeof expected - 1), 0);
    SAME(dikothelm_readers(&bench, 5), 8);
}

/* A bench with 1 running and 2 draining at instrument 6; it would accept each of these frames. */
static const char *const frames[] = {"0107", "020701", "030105", "040105", "0501", "0601", "070206"};
enum { FRAMES = sizeof frames / sizeof *frames };
static dikothelm_bench with_1_running(void) {
    dikothelm_bench bench;
    dikothelm_empty(&bench);
    dikothelm_open_top(&bench, 1);
    dikothelm_open_top(&bench, 2);
    dikothelm_write(&bench, 2, 6);
    dikothelm_abort(&bench, 2);
    return bench;
}

/* The line, without its newline, is no request: with its newline and as a last line without it, it gets 8 and changes nothing. */
static void malformed(const uint8_t *line, size_t length, size_t room) {
    static uint8_t trace[140000], said[16];
    dikothelm_bench bench = with_1_running();
    const dikothelm_bench before = bench;
    memcpy(trace, line, length);
    trace[length] = '\n';
    memset(said, 0, sizeof said);
    if (play_whole(&bench, trace, length, room, said) != 3 || memcmp(said, "08\n", 3) != 0 || play_whole(&bench, trace, length + 1, room, said) != 3 ||
        memcmp(said, "08\n", 3) != 0 || memcmp(&bench, &before, sizeof bench) != 0) {
        printf("a line of %lu characters, %02x %02x %02x %02x .., is answered %c%c or changes something\n", (unsigned long)length, trace[0], trace[1],
               trace[2], trace[3], said[0], said[1]);
        failed = 1;
    }
}

static void lines_that_look_right(void) {
    static const char *const lines[] = {"010A", "010a0", "03010500", "0301 05", " 030105", "030105 ", "030105\r", "0x0107", "1",   "01",
                                        "010",  "03015", "0701",     "00",      "0101ff",  "FF",      "x",        "+107",   "01\t7"};
    static const size_t digits[] = {8, 10, 256, 258, 260, 262, 512, 516, 518, 65536, 65540, 65542};
    static uint8_t line[140000];
    size_t f, k, place;
    unsigned byte;
    for (k = 0; k < sizeof lines / sizeof *lines; k++) malformed((const uint8_t *)lines[k], strlen(lines[k]), 3 + k);
    for (f = 0; f < FRAMES; f++) {
        const size_t length = strlen(frames[f]);
        dikothelm_bench bench = with_1_running();
        uint8_t said[3];
        SAME(play_whole(&bench, (const uint8_t *)frames[f], length, 60, said), 3);
        SAME(memcmp(said, "00\n", 3), 0);
        for (k = 0; k < sizeof digits / sizeof *digits; k++) { /* padded with zeros, behind and before */
            memset(line, '0', digits[k]);
            memcpy(line, frames[f], length);
            malformed(line, digits[k], 600);
            memset(line, '0', digits[k]);
            memcpy(line + digits[k] - length, frames[f], length);
            malformed(line, digits[k], 600);
        }
        for (byte = 0; byte < 256; byte++) {
            if ((byte >= '0' && byte <= '9') || (byte >= 'a' && byte <= 'f') || byte == '\n') continue;
            for (place = 0; place <= length; place++) { /* in a digit's place, and between digits */
                memcpy(line, frames[f], length);
                line[place] = (uint8_t)byte;
                malformed(line, place < length ? length : length + 1, 3 + byte % 40);
                memmove(line + place + 1, frames[f] + place, length - place);
                malformed(line, length + 1, 3 + byte % 40);
            }
        }
    }
}

static void long_lines(void) {
    static const uint8_t bytes[] = {'0', 'f', '\r', 0, 0x80, 0xff};
    static uint8_t line[140000];
    size_t k, length;
    for (k = 0; k < sizeof bytes; k++) {
        memset(line, bytes[k], sizeof line);
        for (length = 250; length <= 270; length++) malformed(line, length, 600);
        malformed(line, 10000, 3);
        for (length = 65530; length <= 65550; length += 4) malformed(line, length, 600);
        malformed(line, 131072 + 4, 600);
    }
}

/* Every state of a line: none, each beginning of a frame, a whole frame, more digits, and other bytes. In each, no room and no input take nothing, and the end
   of the input answers a begun line where there is room. */
static void states_of_a_line(const char *line, const char *answer, int unsound) {
    const size_t length = strlen(line);
    dikothelm_bench bench = with_1_running(), before;
    uint64_t progress[DIKOTHELM_PROGRESS] = {0, 0, 0, 0};
    uint64_t digits, value;
    uint8_t out[200];
    size_t room;
    if (unsound) bench.owners[0] = (uint64_t)1 << 63;
    before = bench;
    memset(out, 0xaa, sizeof out);
    SAME(dikothelm_play(&bench, progress, (const uint8_t *)line, length, out, sizeof out), 0);
    SAME(progress[DIKOTHELM_TAKEN], length);
    SAME(progress[DIKOTHELM_WRITTEN], 0);
    SAME(progress[DIKOTHELM_DIGITS] != 0, length != 0);
    digits = progress[DIKOTHELM_DIGITS];
    value = progress[DIKOTHELM_VALUE];
    for (room = 0; room < 3; room++) {
        progress[DIKOTHELM_TAKEN] = progress[DIKOTHELM_WRITTEN] = 9;
        SAME(dikothelm_play(&bench, progress, (const uint8_t *)"\n0101\n", 6, out, room), 0);
        SAME(progress[DIKOTHELM_TAKEN], 0);
        SAME(progress[DIKOTHELM_WRITTEN], 0);
        progress[DIKOTHELM_TAKEN] = progress[DIKOTHELM_WRITTEN] = 9;
        SAME(dikothelm_finish(&bench, progress, out, room), 0);
        SAME(progress[DIKOTHELM_TAKEN], 0);
        SAME(progress[DIKOTHELM_WRITTEN], 0);
        SAME(dikothelm_play(&bench, progress, (const uint8_t *)"\n", 0, out, sizeof out), 0);
        SAME(progress[DIKOTHELM_DIGITS], digits);
        SAME(progress[DIKOTHELM_VALUE], value);
    }
    SAME(memcmp(&bench, &before, sizeof bench), 0);
    SAME(out[0], 0xaa);
    progress[DIKOTHELM_TAKEN] = 9;
    SAME(dikothelm_finish(&bench, progress, out, 3), 0);
    SAME(progress[DIKOTHELM_TAKEN], 0);
    SAME(progress[DIKOTHELM_WRITTEN], strlen(answer));
    SAME(progress[DIKOTHELM_DIGITS], 0);
    SAME(memcmp(out, length == 0 ? "\xaa\xaa\xaa\xaa" : answer, length == 0 ? 4 : 3), 0);
    SAME(out[3], 0xaa);
    SAME(memcmp(&bench, &before, sizeof bench) == 0, strcmp(answer, "00\n") != 0);
    before = bench;
    progress[DIKOTHELM_WRITTEN] = 9;
    SAME(dikothelm_finish(&bench, progress, out, sizeof out), 0); /* again: nothing is left to answer */
    SAME(progress[DIKOTHELM_WRITTEN], 0);
    SAME(memcmp(&bench, &before, sizeof bench), 0);
}

static void ends_of_input(void) {
    static const char *const others[] = {"x", "\x80", "\xff", "\r", "0107x", "0301050", "03010500", "ffffffffffffffff"};
    char line[8];
    size_t f, k;
    int unsound;
    for (unsound = 0; unsound <= 1; unsound++) {
        states_of_a_line("", "", unsound);
        for (f = 0; f < FRAMES; f++) {
            for (k = 1; k <= strlen(frames[f]); k++) {
                memcpy(line, frames[f], k);
                line[k] = 0;
                states_of_a_line(line, k < strlen(frames[f]) ? "08\n" : unsound ? "07\n" : "00\n", unsound);
            }
        }
        states_of_a_line("030180", unsound ? "07\n" : "02\n", unsound);
        states_of_a_line("0140", unsound ? "07\n" : "01\n", unsound);
        states_of_a_line("070106", unsound ? "07\n" : "0a\n", unsound);
        for (k = 0; k < sizeof others / sizeof *others; k++) states_of_a_line(others[k], "08\n", unsound);
    }
}

/* What a single call answers to a list's request. */
static uint32_t single(dikothelm_bench *bench, const dikothelm_request *request) {
    const uint32_t x = request->x, y = request->y;
    switch (request->kind) {
    case DIKOTHELM_OPEN_TOP: return dikothelm_open_top(bench, x);
    case DIKOTHELM_OPEN_SUB: return dikothelm_open_sub(bench, x, y);
    case DIKOTHELM_READ: return dikothelm_read(bench, x, y);
    case DIKOTHELM_WRITE: return dikothelm_write(bench, x, y);
    case DIKOTHELM_COMMIT: return dikothelm_commit(bench, x);
    case DIKOTHELM_ABORT: return dikothelm_abort(bench, x);
    case DIKOTHELM_QUIET: return dikothelm_quiet(bench, x, y);
    default: return DIKOTHELM_MALFORMED;
    }
}

/* A list in one call does what single calls in its order do, one that is too long does nothing, and the words around it stay. Left in bench: what it did. */
static void list_beside_single_calls(dikothelm_bench *bench, const dikothelm_request *list, size_t count) {
    static dikothelm_request played[1002], expected[1002];
    dikothelm_bench asked = *bench;
    size_t k;
    memset(played, 0xaa, sizeof played);
    memcpy(played + 1, list, count * sizeof *list);
    memcpy(expected, played, sizeof played);
    for (k = 1; count <= DIKOTHELM_LONGEST_LIST && k <= count; k++) expected[k].answer = single(&asked, expected + k);
    SAME(dikothelm_list(bench, played + 1, count), count > DIKOTHELM_LONGEST_LIST ? DIKOTHELM_TOO_LONG : 0);
    SAME(memcmp(played, expected, sizeof played), 0);
    SAME(memcmp(bench, &asked, sizeof asked), 0);
}

/* Numbers that look random and are the same each time. */
static uint32_t drawn(uint32_t below) {
    static uint64_t state = 1;
    state = state * 6364136223846793005u + 1442695040888963407u;
    return (uint32_t)(state >> 33) % below;
}

/* A request as a desk may send it: now and then of a kind that is none, with numbers at and beyond the edges; a spare number is anything. */
static dikothelm_request drawn_request(void) {
    static const uint32_t kinds[] = {0, 8, 255, 256, 0xffffffffu}, numbers[] = {62, 63, 64, 127, 128, 256, 0xffffffffu};
    dikothelm_request request;
    request.kind = drawn(8) ? 1 + drawn(7) : drawn(2) ? kinds[drawn(5)] : 1 + drawn(7) + 256 * (1 + drawn(0xffffff));
    request.x = drawn(12) ? drawn(10) : numbers[drawn(7)];
    request.y = drawn(12) ? drawn(10) : numbers[drawn(7)];
    if (request.kind == DIKOTHELM_OPEN_TOP || request.kind == DIKOTHELM_COMMIT || request.kind == DIKOTHELM_ABORT) request.y = drawn(0x7fffffff) * 2 + 1;
    request.answer = drawn(0x7fffffff);
    return request;
}

static void lists(void) {
    static const size_t counts[] = {0, 1, 2, 31, 32, 33, 1000};
    static dikothelm_request list[1000];
    dikothelm_bench bench;
    size_t k, turn;
    for (turn = 0; turn < 2000; turn++) {
        const size_t count = turn % 20 == 0 ? counts[turn / 20 % 7] : drawn(DIKOTHELM_LONGEST_LIST + 2);
        if (turn % 50 == 0) dikothelm_empty(&bench);
        if (turn % 50 == 40) bench.actions[drawn(2 * DIKOTHELM_ACTIONS)] ^= (uint8_t)(1 + drawn(255)); /* most often this makes it unsound */
        if (turn % 50 == 45) bench.owners[drawn(2 * DIKOTHELM_INSTRUMENTS)] ^= (uint64_t)1 << (20 + drawn(44));
        for (k = 0; k < count; k++) list[k] = drawn_request();
        list_beside_single_calls(&bench, list, count);
    }
}

/* Lists at their edges, on a sound bench, an unsound one and a record of another length. */
static void lists_at_the_edges(void) {
    static const size_t too_many[] = {33, 34, 1000, (size_t)-1 / 16, (size_t)-1 / 4, (size_t)-1 / 4 + 1, (size_t)-1 / 2 + 1, (size_t)-1};
    static const uint32_t kinds[] = {0, 8, 9, 255, 256, 256 + 3, 512 + 4, 0x10003, 0xffffff03u, 0xffffffffu};
    static uint32_t words[4 * 33], expected[4 * 33];
    dikothelm_bench bench = with_1_running();
    const dikothelm_bench before = bench;
    dikothelm_request list[33];
    size_t k, spare;
    SAME(dikothelm_list(&bench, NULL, 0), 0);
    SAME(memcmp(&bench, &before, sizeof bench), 0);
    for (k = 0; k < 33; k++) { /* 1 reads instrument k */
        list[k].kind = DIKOTHELM_READ;
        list[k].x = 1;
        list[k].y = (uint32_t)k;
        list[k].answer = 77;
    }
    memcpy(words, list, sizeof words);
    for (k = 0; k < sizeof too_many / sizeof *too_many; k++) {
        SAME(dikothelm_list(&bench, list, too_many[k]), DIKOTHELM_TOO_LONG);
        SAME(memcmp(words, list, sizeof words), 0);
        SAME(memcmp(&bench, &before, sizeof bench), 0);
    }
    for (spare = 0; spare <= 3; spare++) { /* words that are no whole request stay, and aren't counted */
        bench = before;
        memcpy(words, list, sizeof words);
        memcpy(expected, list, sizeof words);
        for (k = 0; k < 32; k++) expected[4 * k + 3] = k == 6 ? DIKOTHELM_NOT_GRANTED : 0; /* 2 drains at 6 */
        SAME(dikothelm_image_list(DIKOTHELM_IMAGE_(&bench), words, 4 * 32 + spare), 0);
        SAME(memcmp(words, expected, sizeof words), 0);
        SAME(dikothelm_readers(&bench, 31), 2);
        SAME(dikothelm_readers(&bench, 32), 0);
        bench = before;
        memcpy(words, list, sizeof words);
        SAME(dikothelm_image_list(DIKOTHELM_IMAGE_(&bench), words, spare), 0);
        SAME(memcmp(words, list, sizeof words), 0);
        SAME(memcmp(&bench, &before, sizeof bench), 0);
        SAME(dikothelm_image_list(bench.actions, 127, bench.owners, 256, words, 4 * 32 + spare), 7);
        SAME(dikothelm_image_list(bench.actions, 128, bench.owners, 255, words, 4 * 33), 11);
        SAME(dikothelm_image_list(NULL, 0, NULL, 0, words, 4 * 33), 11);
        SAME(dikothelm_image_list(NULL, 0, NULL, 0, NULL, 0), 7);
        SAME(memcmp(words, list, sizeof words), 0);
        SAME(memcmp(&bench, &before, sizeof bench), 0);
    }
    bench.owners[0] = (uint64_t)1 << 63; /* a free number in a set */
    for (k = 0; k < sizeof kinds / sizeof *kinds; k++) list[2 * k].kind = kinds[k];
    memcpy(words, list, sizeof words);
    SAME(dikothelm_list(&bench, list, 33), DIKOTHELM_TOO_LONG); /* 11 before 7 and 8 */
    SAME(memcmp(words, list, sizeof words), 0);
    SAME(dikothelm_list(&bench, list, 32), 0);
    for (k = 0; k < 32; k++) SAME(list[k].answer, k % 2 == 0 && k / 2 < sizeof kinds / sizeof *kinds ? 8 : 7);
    SAME(list[32].answer, 77);
    SAME(bench.owners[0], (uint64_t)1 << 63);
    bench.owners[0] = 0;
    SAME(memcmp(&bench, &before, sizeof bench), 0);
    SAME(dikothelm_list(&bench, list, 32), 0); /* unknown kinds on a sound bench, between requests that are granted */
    for (k = 0; k < 32; k++) SAME(list[k].answer, k % 2 == 0 && k / 2 < sizeof kinds / sizeof *kinds ? 8 : k == 6 ? 6 : 0);
}

/* NULL with length 0 is an empty slice, in every place. */
static void null_with_length_0(void) {
    dikothelm_bench bench = with_1_running();
    const dikothelm_bench before = bench;
    uint64_t progress[DIKOTHELM_PROGRESS] = {0, 0, 0, 0};
    uint8_t out[6];
    size_t count = 77;
    memset(out, 0xaa, sizeof out);
    SAME(dikothelm_image_empty(NULL, 0, NULL, 0), 7);
    SAME(dikothelm_image_empty(bench.actions, 128, NULL, 0), 7);
    SAME(dikothelm_image_empty(NULL, 0, bench.owners, 256), 7);
    SAME(dikothelm_image_sound(NULL, 0, NULL, 0), 7);
    SAME(dikothelm_image_open_top(NULL, 0, NULL, 0, 1), 7);
    SAME(dikothelm_image_open_sub(NULL, 0, NULL, 0, 2, 1), 7);
    SAME(dikothelm_image_read(NULL, 0, NULL, 0, 1, 1), 7);
    SAME(dikothelm_image_write(NULL, 0, NULL, 0, 1, 1), 7);
    SAME(dikothelm_image_commit(NULL, 0, NULL, 0, 1), 7);
    SAME(dikothelm_image_abort(NULL, 0, NULL, 0, 1), 7);
    SAME(dikothelm_image_quiet(NULL, 0, NULL, 0, 1, 1), 7);
    SAME(dikothelm_image_text_size(NULL, 0, NULL, 0, &count), 7);
    SAME(count, 0);
    count = 77;
    SAME(dikothelm_image_save(NULL, 0, NULL, 0, NULL, 0, &count), 7);
    SAME(count, 0);
    SAME(dikothelm_image_load(NULL, 0, NULL, 0, NULL, 0), 7);
    SAME(dikothelm_image_play(NULL, 0, NULL, 0, NULL, 0, NULL, 0, NULL, 0), 7);
    SAME(dikothelm_image_play(bench.actions, 128, bench.owners, 256, NULL, 0, NULL, 0, NULL, 0), 7);
    SAME(dikothelm_image_finish(NULL, 0, NULL, 0, NULL, 0, NULL, 0), 7);
    SAME(dikothelm_image_finish(bench.actions, 128, bench.owners, 256, NULL, 0, NULL, 0), 7);
    count = 77;
    SAME(dikothelm_save(&bench, NULL, 0, &count), DIKOTHELM_NO_ROOM);
    SAME(count, 0);
    SAME(dikothelm_play(&bench, progress, NULL, 0, NULL, 0), 0);
    SAME(dikothelm_play(&bench, progress, NULL, 0, out, sizeof out), 0);
    SAME(dikothelm_play(&bench, progress, (const uint8_t *)"0102\n", 5, NULL, 0), 0);
    SAME(progress[DIKOTHELM_TAKEN], 0);
    SAME(dikothelm_finish(&bench, progress, NULL, 0), 0);
    SAME(out[0], 0xaa);
    SAME(memcmp(&bench, &before, sizeof bench), 0);
    SAME(dikothelm_load(&bench, NULL, 0), 0);
    count = 77;
    SAME(dikothelm_save(&bench, NULL, 0, &count), 0);
    SAME(count, 0);
    SAME(dikothelm_state(&bench, 1), DIKOTHELM_FREE);
}

/* Every function with a record of other lengths: 7, and nothing changes. */
static void other_lengths(size_t many_actions, size_t many_owners, size_t many_progress) {
    static uint8_t actions[256], old_actions[256], out[64], old_out[64];
    static uint64_t owners[512], old_owners[512], progress[8], old_progress[8];
    static const uint32_t old_words[4] = {DIKOTHELM_OPEN_TOP, 1, 0, 77};
    uint32_t words[4] = {DIKOTHELM_OPEN_TOP, 1, 0, 77};
    const int record_is_wrong = many_actions != 128 || many_owners != 256;
    size_t count = 77;
    memset(actions, 0, sizeof actions);
    memset(owners, 0, sizeof owners);
    actions[1] = 0x5a; /* changed if this were emptied or loaded */
    memset(out, 0xaa, sizeof out);
    memset(progress, 0, sizeof progress);
    progress[DIKOTHELM_DIGITS] = 7; /* a line to end, if it were ended */
    memcpy(old_actions, actions, sizeof actions);
    memcpy(old_owners, owners, sizeof owners);
    memcpy(old_out, out, sizeof out);
    memcpy(old_progress, progress, sizeof progress);
    if (record_is_wrong) {
        SAME(dikothelm_image_empty(actions, many_actions, owners, many_owners), 7);
        SAME(dikothelm_image_sound(actions, many_actions, owners, many_owners), 7);
        SAME(dikothelm_image_open_top(actions, many_actions, owners, many_owners, 64), 7);
        SAME(dikothelm_image_open_sub(actions, many_actions, owners, many_owners, 1, 64), 7);
        SAME(dikothelm_image_read(actions, many_actions, owners, many_owners, 1, 128), 7);
        SAME(dikothelm_image_write(actions, many_actions, owners, many_owners, 1, 1), 7);
        SAME(dikothelm_image_commit(actions, many_actions, owners, many_owners, 1), 7);
        SAME(dikothelm_image_abort(actions, many_actions, owners, many_owners, 1), 7);
        SAME(dikothelm_image_quiet(actions, many_actions, owners, many_owners, 64, 128), 7);
        SAME(dikothelm_image_save(actions, many_actions, owners, many_owners, out, sizeof out, &count), 7);
        SAME(count, 0);
        count = 77;
        SAME(dikothelm_image_text_size(actions, many_actions, owners, many_owners, &count), 7);
        SAME(count, 0);
        SAME(dikothelm_image_load(actions, many_actions, owners, many_owners, (const uint8_t *)"", 0), 7);
    }
    if (record_is_wrong) SAME(dikothelm_image_list(actions, many_actions, owners, many_owners, words, 4), 7);
    SAME(memcmp(words, old_words, sizeof words), 0);
    SAME(dikothelm_image_play(actions, many_actions, owners, many_owners, progress, many_progress, (const uint8_t *)"0101\n", 5, out, sizeof out), 7);
    SAME(dikothelm_image_finish(actions, many_actions, owners, many_owners, progress, many_progress, out, sizeof out), 7);
    SAME(memcmp(actions, old_actions, sizeof actions), 0);
    SAME(memcmp(owners, old_owners, sizeof owners), 0);
    SAME(memcmp(out, old_out, sizeof out), 0);
    SAME(memcmp(progress, old_progress, sizeof progress), 0);
}

static void answers_in_words(void) {
    static const char *const words[] = {"accepted",
                                        "no such action number",
                                        "no such instrument",
                                        "the number isn't free",
                                        "the acting number isn't running",
                                        "it has a running child",
                                        "not granted: an action that is no ancestor owns it",
                                        "the record isn't sound",
                                        "malformed",
                                        "the buffer is too short",
                                        "it isn't an aborted action that drains there",
                                        "the list is too long"};
    int number;
    for (number = 0; number <= 11; number++) SAME(strcmp(dikothelm_says((enum dikothelm_answer)number), words[number]), 0);
    SAME(strcmp(dikothelm_says((enum dikothelm_answer)12), "no answer of the table"), 0);
    SAME(strcmp(dikothelm_says((enum dikothelm_answer)15), "no answer of the table"), 0);
}

int main(void) {
    static const size_t actions[] = {0, 1, 64, 127, 129, 256}, owners[] = {0, 1, 128, 255, 257, 512}, words[] = {0, 3, 5, 8};
    size_t k, l;
    the_whole_case();
    draining();
    numbers_at_the_edges();
    looking_at_a_bench();
    saved_and_loaded();
    text_sizes();
    for (k = 3; k <= 200; k++) played_with_room(k);
    lines_that_look_right();
    long_lines();
    ends_of_input();
    lists();
    lists_at_the_edges();
    null_with_length_0();
    for (k = 0; k < 6; k++) {
        other_lengths(actions[k], 256, 4);
        other_lengths(128, owners[k], 4);
        for (l = 0; l < 6; l++) other_lengths(actions[k], owners[l], 4);
    }
    for (k = 0; k < 4; k++) other_lengths(128, 256, words[k]);
    answers_in_words();
    puts(failed ? "something differs" : "all as expected");
    return failed;
}
