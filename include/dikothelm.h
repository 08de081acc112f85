/* Dikothelm: a lock table for a test bench of 128 instruments and 64 action numbers, for C and C++.

   Actions nest, siblings run side by side, and instruments are locked by Moss's rules: an action may read what only itself and its ancestors write,
   and may write what only itself and its ancestors read or write. A committed subaction's locks count as its parent's. An aborted action that owns
   something drains: its locks stay, and stand in everybody's way, until each of its instruments is said to be quiet.

   dikothelm_version and the dikothelm_image_ functions are the proved library; link target/staticlib/libdikothelm.a, which `.ci/build archive` proves
   and builds. Below them stand the same ones over a struct, and a few that only look at it: plain C, tested, not proved.

   No function allocates, prints or keeps anything between calls; every number and every content of a record has its answer.
   What the caller must see to: pointers are valid for their lengths, aligned, and what is lent to write doesn't overlap the rest. A pointer whose length
   is 0 may be NULL: nothing is read or written through it. Pointers without a length may not: `count`, and a bench or progress in the functions over a struct. */
#ifndef DIKOTHELM_H
#define DIKOTHELM_H

#include <stddef.h>
#include <stdint.h>

/* This header's version, major * 65536 + minor * 256 + patch. The archive's is dikothelm_version(); the two belong together where they are equal. */
#define DIKOTHELM_VERSION 0x000400 /* 0.4.0 */

#define DIKOTHELM_ACTIONS 64        /* action numbers are 0 to 63 */
#define DIKOTHELM_INSTRUMENTS 128   /* instruments are 0 to 127 */
#define DIKOTHELM_LONGEST_TEXT 5312 /* a saved bench has at most so many bytes */
#define DIKOTHELM_LONGEST_LIST 32   /* a list of requests has at most so many */

/* The stack that a call takes: at most so many bytes below the caller's frame, its arguments and its return address included. Measured and tested, with the
   archive as it is built for x86-64 (benchmarks/stack), not proved. */
#define DIKOTHELM_STACK_EMPTY 32     /* dikothelm_version, dikothelm_image_empty */
#define DIKOTHELM_STACK_REQUEST 480  /* dikothelm_image_sound, each request, dikothelm_image_list */
#define DIKOTHELM_STACK_SAVED 480    /* dikothelm_image_text_size, _save and _load */
#define DIKOTHELM_STACK_PLAY 18752   /* dikothelm_image_play */
#define DIKOTHELM_STACK_FINISH 16576 /* dikothelm_image_finish */

/* Where several answers apply, 7 comes first and then the lowest. (A line, a text, a kind in a list: 8 first. A list: 11 first.) */
enum dikothelm_answer {
    DIKOTHELM_ACCEPTED = 0,           /* done */
    DIKOTHELM_NO_SUCH_ACTION = 1,     /* an action number is above 63 */
    DIKOTHELM_NO_SUCH_INSTRUMENT = 2, /* the instrument is above 127 */
    DIKOTHELM_NOT_FREE = 3,           /* the number to open is in use: running, committed or draining */
    DIKOTHELM_NOT_RUNNING = 4,        /* the acting number, or the parent to open under, isn't running */
    DIKOTHELM_RUNNING_CHILD = 5,      /* the acting number has a running child */
    DIKOTHELM_NOT_GRANTED = 6,        /* an owner in a conflicting mode is neither the asker nor an ancestor of it */
    DIKOTHELM_UNSOUND = 7,            /* the record isn't sound, or has another length */
    DIKOTHELM_MALFORMED = 8,          /* the line or the saved text is malformed, or no request has the kind */
    DIKOTHELM_NO_ROOM = 9,            /* the buffer is shorter than the text */
    DIKOTHELM_NOT_DRAINING = 10,      /* the number isn't an aborted action that drains, or nothing of it drains at the instrument */
    DIKOTHELM_TOO_LONG = 11           /* the list has more than 32 requests */
};

/* The kinds of requests in a list, with what x and y are. A number that isn't named is spare, and may be anything. */
enum dikothelm_kind {
    DIKOTHELM_OPEN_TOP = 1, /* x: n */
    DIKOTHELM_OPEN_SUB = 2, /* x: n, y: p */
    DIKOTHELM_READ = 3,     /* x: a, y: i */
    DIKOTHELM_WRITE = 4,    /* x: a, y: i */
    DIKOTHELM_COMMIT = 5,   /* x: a */
    DIKOTHELM_ABORT = 6,    /* x: a */
    DIKOTHELM_QUIET = 7     /* x: a, y: i */
};

enum dikothelm_action_state { DIKOTHELM_FREE = 0, DIKOTHELM_RUNNING = 1, DIKOTHELM_COMMITTED = 2, DIKOTHELM_DRAINING = 3 };

/* The places of a player's progress, four words; all 0 before the first call. */
enum dikothelm_progress {
    DIKOTHELM_DIGITS = 0,  /* 0 exactly where no line has begun */
    DIKOTHELM_VALUE = 1,   /* what the digits of a begun line write */
    DIKOTHELM_TAKEN = 2,   /* bytes of the input that the last call took */
    DIKOTHELM_WRITTEN = 3, /* bytes of answers that it wrote */
    DIKOTHELM_PROGRESS = 4 /* the number of words */
};

#ifdef __cplusplus
extern "C" {
#endif

/* The proved library, over a record of two arrays:

     actions, 128 bytes: the parents of numbers 0 to 63 (0: none, else the parent's number + 1), then their states (enum dikothelm_action_state; a draining
     number, which has no parent, has DIKOTHELM_DRAINING + the number of the aborted action that it drains under, 3 to 66);
     owners, 256 words: the read sets of instruments 0 to 127, then their write sets (bit k: number k).

   Lengths count elements. A record of other lengths gets 7 and stays as it is. Whatever the answer but 0, nothing changes, with two exceptions: `count` is
   then set to 0, and load leaves an empty bench. */

/* The version of the archive, as DIKOTHELM_VERSION.
   Stack: DIKOTHELM_STACK_EMPTY. */
uint32_t dikothelm_version(void);

/* Makes the record an empty bench. 0, or 7 for another length.
   Stack: DIKOTHELM_STACK_EMPTY. */
uint8_t dikothelm_image_empty(uint8_t *actions, size_t actions_length, uint64_t *owners, size_t owners_length);

/* Whether the record is a sound bench. 0 if so, else 7.
   Stack: DIKOTHELM_STACK_REQUEST. */
uint8_t dikothelm_image_sound(const uint8_t *actions, size_t actions_length, const uint64_t *owners, size_t owners_length);

/* Makes n a running top action. 7; 1: n above 63; 3: n isn't free.
   Stack: DIKOTHELM_STACK_REQUEST. */
uint8_t dikothelm_image_open_top(uint8_t *actions, size_t actions_length, uint64_t *owners, size_t owners_length, uint32_t n);

/* Makes n a running action under p. 7; 1: n or p above 63; 3: n isn't free; 4: p isn't running.
   Stack: DIKOTHELM_STACK_REQUEST. */
uint8_t dikothelm_image_open_sub(uint8_t *actions, size_t actions_length, uint64_t *owners, size_t owners_length, uint32_t n, uint32_t p);

/* Lets a read instrument i. 7; 1: a above 63; 2: i above 127; 4: a isn't running; 5: a has a running child; 6: an owner of the write set is neither a
   nor an ancestor of a.
   Stack: DIKOTHELM_STACK_REQUEST. */
uint8_t dikothelm_image_read(uint8_t *actions, size_t actions_length, uint64_t *owners, size_t owners_length, uint32_t a, uint32_t i);

/* Lets a write instrument i. As read; 6: an owner of either set is neither a nor an ancestor of a.
   Stack: DIKOTHELM_STACK_REQUEST. */
uint8_t dikothelm_image_write(uint8_t *actions, size_t actions_length, uint64_t *owners, size_t owners_length, uint32_t a, uint32_t i);

/* Commits a: its parent inherits its locks. A top's commit frees it and all its descendants, and their locks. 7; 1: a above 63; 4: a isn't running; 5: a
   has a running child.
   Stack: DIKOTHELM_STACK_REQUEST. */
uint8_t dikothelm_image_commit(uint8_t *actions, size_t actions_length, uint64_t *owners, size_t owners_length, uint32_t a);

/* Aborts a and all its descendants, running or committed. If one of them stands in a set, they all drain under a: they leave the tree and stay in use, and
   a owns what they had, until dikothelm_image_quiet. Else they become free. 7; 1: a above 63; 4: a isn't running.
   Stack: DIKOTHELM_STACK_REQUEST. */
uint8_t dikothelm_image_abort(uint8_t *actions, size_t actions_length, uint64_t *owners, size_t owners_length, uint32_t a);

/* Instrument i is quiet for the aborted action a: all numbers that drain under a leave its sets, and become free when none of them is left in any set. 7; 1: a
   above 63; 2: i above 127; 10: a doesn't drain under itself, or none that drains under it is in the sets of i.
   Stack: DIKOTHELM_STACK_REQUEST. */
uint8_t dikothelm_image_quiet(uint8_t *actions, size_t actions_length, uint64_t *owners, size_t owners_length, uint32_t a, uint32_t i);

/* Plays a list of requests in their order, and tests the record once for all of them. A request is four words: its kind (enum dikothelm_kind), x, y and the
   place for its answer, where the call puts what the single call would have answered. A refused request doesn't stop the rest. A kind that isn't 1 to 7 gets 8
   at its place, and on an unsound record every other gets 7. Nothing but the answers changes in words; up to three words behind the last whole request are
   none. 0; 11: more than 32 requests; 7: a record of another length. Whatever the answer but 0, nothing is played.
   Stack: DIKOTHELM_STACK_REQUEST. */
uint8_t dikothelm_image_list(uint8_t *actions, size_t actions_length, uint64_t *owners, size_t owners_length, uint32_t *words, size_t words_length);

/* How many bytes the bench's text has, put into count. 0; 7, with count 0.
   Stack: DIKOTHELM_STACK_SAVED. */
uint8_t dikothelm_image_text_size(const uint8_t *actions, size_t actions_length, const uint64_t *owners, size_t owners_length, size_t *count);

/* Writes the bench as text to the start of out; bytes behind it stay. count: the bytes written. 0; 7; 9: out is shorter than the text. Refused, it sets
   count to 0 and leaves all of out as it was.
   Stack: DIKOTHELM_STACK_SAVED. */
uint8_t dikothelm_image_save(const uint8_t *actions, size_t actions_length, const uint64_t *owners, size_t owners_length, uint8_t *out, size_t out_length,
                             size_t *count);

/* Makes the record the bench that a text saved. 0; 8: the text is malformed; 7: it is well shaped and its bench isn't sound, or the record has another
   length. Refused, it leaves an empty bench (a record of another length stays as it is).
   Stack: DIKOTHELM_STACK_SAVED. */
uint8_t dikothelm_image_load(uint8_t *actions, size_t actions_length, uint64_t *owners, size_t owners_length, const uint8_t *text, size_t text_length);

/* Plays lines of hexadecimal, each ended by a newline: 01nn open top, 02nnpp open sub, 03aaii read, 04aaii write, 05aa commit, 06aa abort, 07aaii quiet; any
   other line gets 8. For each line it writes the answer to out, two digits and a newline; bytes behind the answers stay. A call takes the input's first
   out_length / 3 bytes, or all where it has fewer: lend at least 3, since below that nothing is taken, and call again with the rest. progress says how many
   bytes were taken and written and carries a begun line to the next call; dikothelm_image_finish ends the input. 0, or 7 where the record or progress has
   another length. On an unsound record each line with a request gets 07.
   Stack: DIKOTHELM_STACK_PLAY. */
uint8_t dikothelm_image_play(uint8_t *actions, size_t actions_length, uint64_t *owners, size_t owners_length, uint64_t *progress, size_t progress_length,
                             const uint8_t *input, size_t input_length, uint8_t *out, size_t out_length);

/* Ends the input that was played: a last line without its newline is answered if it has a character, and nothing else is done. progress says that 0 bytes
   were taken and 0 or 3 written. Lend at least 3: below that a begun line stays begun, so that the call can be made again; progress[DIKOTHELM_DIGITS] is then
   not 0. 0, or 7 where the record or progress has another length.
   Stack: DIKOTHELM_STACK_FINISH. */
uint8_t dikothelm_image_finish(uint8_t *actions, size_t actions_length, uint64_t *owners, size_t owners_length, uint64_t *progress, size_t progress_length,
                               uint8_t *out, size_t out_length);

#ifdef __cplusplus
}
#endif

/* The same over a struct. A bench of zeros is the empty bench: `dikothelm_bench bench = {0};`, in C++ `dikothelm_bench bench = {};`. */
typedef struct dikothelm_bench {
    uint8_t actions[2 * DIKOTHELM_ACTIONS];
    uint64_t owners[2 * DIKOTHELM_INSTRUMENTS];
} dikothelm_bench;

#define DIKOTHELM_IMAGE_(bench) (bench)->actions, (size_t)(2 * DIKOTHELM_ACTIONS), (bench)->owners, (size_t)(2 * DIKOTHELM_INSTRUMENTS)

/* 0. */
static inline enum dikothelm_answer dikothelm_empty(dikothelm_bench *bench) {
    return (enum dikothelm_answer)dikothelm_image_empty(DIKOTHELM_IMAGE_(bench));
}

/* 0 or 7. */
static inline enum dikothelm_answer dikothelm_sound(const dikothelm_bench *bench) {
    return (enum dikothelm_answer)dikothelm_image_sound(DIKOTHELM_IMAGE_(bench));
}

/* 0, 1, 3 or 7. */
static inline enum dikothelm_answer dikothelm_open_top(dikothelm_bench *bench, uint32_t n) {
    return (enum dikothelm_answer)dikothelm_image_open_top(DIKOTHELM_IMAGE_(bench), n);
}

/* 0, 1, 3, 4 or 7. */
static inline enum dikothelm_answer dikothelm_open_sub(dikothelm_bench *bench, uint32_t n, uint32_t p) {
    return (enum dikothelm_answer)dikothelm_image_open_sub(DIKOTHELM_IMAGE_(bench), n, p);
}

/* 0, 1, 2, 4, 5, 6 or 7. */
static inline enum dikothelm_answer dikothelm_read(dikothelm_bench *bench, uint32_t a, uint32_t i) {
    return (enum dikothelm_answer)dikothelm_image_read(DIKOTHELM_IMAGE_(bench), a, i);
}

/* 0, 1, 2, 4, 5, 6 or 7. */
static inline enum dikothelm_answer dikothelm_write(dikothelm_bench *bench, uint32_t a, uint32_t i) {
    return (enum dikothelm_answer)dikothelm_image_write(DIKOTHELM_IMAGE_(bench), a, i);
}

/* 0, 1, 4, 5 or 7. */
static inline enum dikothelm_answer dikothelm_commit(dikothelm_bench *bench, uint32_t a) {
    return (enum dikothelm_answer)dikothelm_image_commit(DIKOTHELM_IMAGE_(bench), a);
}

/* 0, 1, 4 or 7. */
static inline enum dikothelm_answer dikothelm_abort(dikothelm_bench *bench, uint32_t a) {
    return (enum dikothelm_answer)dikothelm_image_abort(DIKOTHELM_IMAGE_(bench), a);
}

/* 0, 1, 2, 7 or 10. */
static inline enum dikothelm_answer dikothelm_quiet(dikothelm_bench *bench, uint32_t a, uint32_t i) {
    return (enum dikothelm_answer)dikothelm_image_quiet(DIKOTHELM_IMAGE_(bench), a, i);
}

/* A request of a list, four words: its kind (enum dikothelm_kind), two numbers, and the place for its answer (enum dikothelm_answer). */
typedef struct dikothelm_request {
    uint32_t kind, x, y, answer;
} dikothelm_request;

/* 0 or 11. In the answers' places: 0 to 8 or 10. */
static inline enum dikothelm_answer dikothelm_list(dikothelm_bench *bench, dikothelm_request *list, size_t count) {
    /* of a list that is too long only so much is said */
    const size_t said = count > DIKOTHELM_LONGEST_LIST ? (size_t)DIKOTHELM_LONGEST_LIST + 1 : count;
    return (enum dikothelm_answer)dikothelm_image_list(DIKOTHELM_IMAGE_(bench), (uint32_t *)(void *)list, 4 * said);
}

/* 0 or 7. */
static inline enum dikothelm_answer dikothelm_text_size(const dikothelm_bench *bench, size_t *count) {
    return (enum dikothelm_answer)dikothelm_image_text_size(DIKOTHELM_IMAGE_(bench), count);
}

/* 0, 7 or 9. */
static inline enum dikothelm_answer dikothelm_save(const dikothelm_bench *bench, uint8_t *out, size_t out_length, size_t *count) {
    return (enum dikothelm_answer)dikothelm_image_save(DIKOTHELM_IMAGE_(bench), out, out_length, count);
}

/* 0, 7 or 8. */
static inline enum dikothelm_answer dikothelm_load(dikothelm_bench *bench, const uint8_t *text, size_t text_length) {
    return (enum dikothelm_answer)dikothelm_image_load(DIKOTHELM_IMAGE_(bench), text, text_length);
}

/* 0. progress has DIKOTHELM_PROGRESS words. */
static inline enum dikothelm_answer dikothelm_play(dikothelm_bench *bench, uint64_t *progress, const uint8_t *input, size_t input_length, uint8_t *out,
                                                   size_t out_length) {
    return (enum dikothelm_answer)dikothelm_image_play(DIKOTHELM_IMAGE_(bench), progress, (size_t)DIKOTHELM_PROGRESS, input, input_length, out, out_length);
}

/* 0. progress has DIKOTHELM_PROGRESS words. */
static inline enum dikothelm_answer dikothelm_finish(dikothelm_bench *bench, uint64_t *progress, uint8_t *out, size_t out_length) {
    return (enum dikothelm_answer)dikothelm_image_finish(DIKOTHELM_IMAGE_(bench), progress, (size_t)DIKOTHELM_PROGRESS, out, out_length);
}

/* Looking at a bench, sound or not. */

/* The aborted action that number n drains under, -1 where it doesn't drain. */
static inline int dikothelm_head(const dikothelm_bench *bench, uint32_t n) {
    const int head = n < DIKOTHELM_ACTIONS ? (int)bench->actions[DIKOTHELM_ACTIONS + n] - DIKOTHELM_DRAINING : -1;
    return head >= 0 && head < DIKOTHELM_ACTIONS ? head : -1;
}

/* The state of number n, DIKOTHELM_FREE, DIKOTHELM_RUNNING, DIKOTHELM_COMMITTED or DIKOTHELM_DRAINING (on an unsound record any byte that means nothing); a
   number above 63 is free. */
static inline uint8_t dikothelm_state(const dikothelm_bench *bench, uint32_t n) {
    if (dikothelm_head(bench, n) >= 0) return DIKOTHELM_DRAINING;
    return n < DIKOTHELM_ACTIONS ? bench->actions[DIKOTHELM_ACTIONS + n] : (uint8_t)DIKOTHELM_FREE;
}

/* The parent that the record has for number n, -1 where it has none: on a sound bench for a top action, a free and a draining number. An unsound record may
   have one for those too, and any up to 254. -1 for a number above 63. */
static inline int dikothelm_parent(const dikothelm_bench *bench, uint32_t n) {
    return n < DIKOTHELM_ACTIONS ? (int)bench->actions[n] - 1 : -1;
}

/* The action that number n's locks count for: the nearest running one among n and its ancestors, or the aborted one that n drains under; -1 if there is
   none. */
static inline int dikothelm_heir(const dikothelm_bench *bench, uint32_t n) {
    int steps, k = n < DIKOTHELM_ACTIONS ? (int)n : -1;
    if (dikothelm_head(bench, n) >= 0) return dikothelm_head(bench, n);
    for (steps = 0; steps < DIKOTHELM_ACTIONS && k >= 0 && k < DIKOTHELM_ACTIONS; steps++) {
        if (bench->actions[DIKOTHELM_ACTIONS + k] == DIKOTHELM_RUNNING) return k;
        k = (int)bench->actions[k] - 1;
    }
    return -1;
}

/* The read set of instrument i, bit k for number k, committed and draining numbers too; empty for an instrument above 127. */
static inline uint64_t dikothelm_readers(const dikothelm_bench *bench, uint32_t i) {
    return i < DIKOTHELM_INSTRUMENTS ? bench->owners[i] : 0;
}

/* The write set of instrument i, likewise. */
static inline uint64_t dikothelm_writers(const dikothelm_bench *bench, uint32_t i) {
    return i < DIKOTHELM_INSTRUMENTS ? bench->owners[DIKOTHELM_INSTRUMENTS + i] : 0;
}

/* The owners that a set of numbers stands for by Moss's rules: the heirs of its members. */
static inline uint64_t dikothelm_heirs(const dikothelm_bench *bench, uint64_t numbers) {
    uint64_t found = 0;
    uint32_t k;
    for (k = 0; k < DIKOTHELM_ACTIONS; k++) {
        int heir = numbers >> k & 1 ? dikothelm_heir(bench, k) : -1;
        if (heir >= 0) found |= (uint64_t)1 << heir;
    }
    return found;
}

/* An answer in words; a number that no answer has, in words too. */
static inline const char *dikothelm_says(enum dikothelm_answer answer) {
    switch (answer) {
    case DIKOTHELM_ACCEPTED: return "accepted";
    case DIKOTHELM_NO_SUCH_ACTION: return "no such action number";
    case DIKOTHELM_NO_SUCH_INSTRUMENT: return "no such instrument";
    case DIKOTHELM_NOT_FREE: return "the number isn't free";
    case DIKOTHELM_NOT_RUNNING: return "the acting number isn't running";
    case DIKOTHELM_RUNNING_CHILD: return "it has a running child";
    case DIKOTHELM_NOT_GRANTED: return "not granted: an action that is no ancestor owns it";
    case DIKOTHELM_UNSOUND: return "the record isn't sound";
    case DIKOTHELM_MALFORMED: return "malformed";
    case DIKOTHELM_NO_ROOM: return "the buffer is too short";
    case DIKOTHELM_NOT_DRAINING: return "it isn't an aborted action that drains there";
    case DIKOTHELM_TOO_LONG: return "the list is too long";
    }
    return "no answer of the table";
}

#endif
