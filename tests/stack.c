/* The stack that each function of the library takes: its arguments that lie on the stack, its return address, and all that it writes below. Each is called on
   a stack of its own, on the benches that ask most of it, accepted and refused.

   stack measure    the bytes that each call took, found by painting its stack: accepted, refused, and what the header states
   stack check      each call on a stack of exactly the stated size, with a page below it that can't be touched; and then on half of it, where it has to fail */
#define _GNU_SOURCE
#include <setjmp.h>
#include <signal.h>
#include <stdio.h>
#include <stdlib.h>
#include <string.h>
#include <sys/mman.h>
#include <unistd.h>

#include "dikothelm.h"

enum { ROOM = 65536, PAGE = 4096, MOST_ARGUMENTS = 10, BENCHES = 24, LINES = 3 * 64 };

/* ---- a call on another stack */

/* Calls a function with so many arguments on the stack that ends at `top`, a multiple of 16: the first six in registers, the others pushed. */
uint64_t stack_call(void *top, void (*function)(void), const uint64_t *arguments, uint64_t count);
__asm__(".text\n"
        "stack_call:\n"
        "    pushq %rbp\n"
        "    pushq %rbx\n"
        "    movq %rsp, %rbp\n"
        "    movq %rdi, %rsp\n"
        "    movq %rsi, %rax\n"
        "    movq %rdx, %rbx\n"
        "    cmpq $6, %rcx\n"
        "    jbe 2f\n"
        "    testq $1, %rcx\n"
        "    jz 1f\n"
        "    pushq $0\n" /* the last of an odd number would leave the stack unaligned */
        "1:  pushq -8(%rbx,%rcx,8)\n"
        "    decq %rcx\n"
        "    cmpq $6, %rcx\n"
        "    ja 1b\n"
        "2:  movq 0(%rbx), %rdi\n"
        "    movq 8(%rbx), %rsi\n"
        "    movq 16(%rbx), %rdx\n"
        "    movq 24(%rbx), %rcx\n"
        "    movq 32(%rbx), %r8\n"
        "    movq 40(%rbx), %r9\n"
        "    callq *%rax\n"
        "    movq %rbp, %rsp\n"
        "    popq %rbx\n"
        "    popq %rbp\n"
        "    retq\n");

/* ---- benches */

/* A number of a chain at a depth: rising, falling or scattered. */
static uint32_t numbered(uint32_t at, int order) {
    return order == 0 ? at : order == 1 ? DIKOTHELM_ACTIONS - 1 - at : (at * 37 + at * at * 32 + 11) % DIKOTHELM_ACTIONS;
}

static uint32_t drawn(uint32_t *state, uint32_t below) {
    *state = *state * 1664525 + 1013904223;
    return (*state >> 8) % below;
}

/* All 64 numbers under one top, as a chain, a star or a random tree. */
static void tree(dikothelm_bench *bench, int order, int shape) {
    uint32_t k, seed = 7;
    dikothelm_empty(bench);
    dikothelm_open_top(bench, numbered(0, order));
    for (k = 1; k < DIKOTHELM_ACTIONS; k++)
        dikothelm_open_sub(bench, numbered(k, order), numbered(shape == 0 ? k - 1 : shape == 1 ? 0 : drawn(&seed, k), order));
}

/* Each number k in the read set of instrument k and in both sets of 64 + k, as a bench has them after many requests. */
static void owners(dikothelm_bench *bench) {
    uint32_t k;
    for (k = 0; k < DIKOTHELM_ACTIONS; k++) {
        bench->owners[k] |= (uint64_t)1 << k;
        bench->owners[64 + k] |= (uint64_t)1 << k;
        bench->owners[128 + 64 + k] |= (uint64_t)1 << k;
    }
}

/* A chain with all but its top committed, each in every set. */
static void inherited(dikothelm_bench *bench, int order) {
    uint32_t k;
    tree(bench, order, 0);
    for (k = 0; k < 2 * DIKOTHELM_INSTRUMENTS; k++) bench->owners[k] = ~(uint64_t)0;
    for (k = DIKOTHELM_ACTIONS - 1; k > 0; k--) dikothelm_commit(bench, numbered(k, order));
}

static void make(dikothelm_bench *bench, int which) {
    uint32_t k, seed = (uint32_t)which;
    dikothelm_empty(bench);
    if (which < 9) tree(bench, which % 3, which / 3);
    if (which >= 9 && which < 12) inherited(bench, which % 3);
    if (which >= 12 && which < 18) { /* families that own something, and the same aborted */
        tree(bench, which % 3, 2);
        owners(bench);
        if (which >= 15) dikothelm_abort(bench, numbered(0, which % 3));
    }
    if (which == 18) { /* 32 groups that drain, two numbers each, and longest of all texts */
        for (k = 0; k < 32; k++) dikothelm_open_top(bench, k);
        for (k = 0; k < 32; k++) dikothelm_open_sub(bench, 63 - k, k);
        owners(bench);
        for (k = 0; k < 32; k++) dikothelm_abort(bench, k);
    }
    if (which == 19) /* a ring */
        for (k = 0; k < DIKOTHELM_ACTIONS; k++) {
            bench->actions[k] = (uint8_t)((k + 1) % 64 + 1);
            bench->actions[64 + k] = DIKOTHELM_RUNNING;
        }
    if (which == 20 || which == 21) { /* any bytes and words */
        for (k = 0; k < 128; k++) bench->actions[k] = (uint8_t)drawn(&seed, 256);
        for (k = 0; k < 256; k++) bench->owners[k] = drawn(&seed, 256);
    }
    if (which == 22) { /* sound but for its last rule: a chain of which the deepest number hangs in a ring of two */
        tree(bench, 0, 0);
        bench->actions[62] = 64;
    }
    /* 23 is empty */
}

/* ---- the calls */

enum call { EMPTY, SOUND, OPEN_TOP, OPEN_SUB, READ, WRITE, COMMIT, ABORT, QUIET, LIST, TEXT_SIZE, SAVE, LOAD, PLAY, FINISH, VERSION, CALLS };

#define FUNCTION(name) (void (*)(void)) name
static const struct {
    const char *name;
    void (*function)(void);
    unsigned stated;
} calls[CALLS] = {
    {"empty", FUNCTION(dikothelm_image_empty), DIKOTHELM_STACK_EMPTY},
    {"sound", FUNCTION(dikothelm_image_sound), DIKOTHELM_STACK_REQUEST},
    {"open_top", FUNCTION(dikothelm_image_open_top), DIKOTHELM_STACK_REQUEST},
    {"open_sub", FUNCTION(dikothelm_image_open_sub), DIKOTHELM_STACK_REQUEST},
    {"read", FUNCTION(dikothelm_image_read), DIKOTHELM_STACK_REQUEST},
    {"write", FUNCTION(dikothelm_image_write), DIKOTHELM_STACK_REQUEST},
    {"commit", FUNCTION(dikothelm_image_commit), DIKOTHELM_STACK_REQUEST},
    {"abort", FUNCTION(dikothelm_image_abort), DIKOTHELM_STACK_REQUEST},
    {"quiet", FUNCTION(dikothelm_image_quiet), DIKOTHELM_STACK_REQUEST},
    {"list", FUNCTION(dikothelm_image_list), DIKOTHELM_STACK_REQUEST},
    {"text_size", FUNCTION(dikothelm_image_text_size), DIKOTHELM_STACK_SAVED},
    {"save", FUNCTION(dikothelm_image_save), DIKOTHELM_STACK_SAVED},
    {"load", FUNCTION(dikothelm_image_load), DIKOTHELM_STACK_SAVED},
    {"play", FUNCTION(dikothelm_image_play), DIKOTHELM_STACK_PLAY},
    {"finish", FUNCTION(dikothelm_image_finish), DIKOTHELM_STACK_FINISH},
    {"version", FUNCTION(dikothelm_version), DIKOTHELM_STACK_EMPTY},
};

static dikothelm_bench benches[BENCHES], bench;
static uint8_t text[DIKOTHELM_LONGEST_TEXT + 1], input[LINES * 8], out[3 * sizeof input];
static uint64_t progress[DIKOTHELM_PROGRESS];
static dikothelm_request list[DIKOTHELM_LONGEST_LIST + 1];
static size_t count;

/* The request number n of a list or a trace: all seven kinds and an unknown one, numbers beyond the table too. */
static dikothelm_request any_request(uint32_t n) {
    dikothelm_request r;
    r.kind = n % 9;
    r.x = n * 5 % 66;
    r.y = n * 7 % 130;
    r.answer = 99;
    return r;
}

/* Lines of the trace from request n on, so many; the last one without its newline where `begun`. */
static size_t trace(uint32_t n, uint32_t lines, int begun) {
    size_t length = 0;
    uint32_t k;
    for (k = 0; k < lines; k++) {
        const dikothelm_request r = any_request(n + k);
        char line[9];
        const int one = r.kind == 1 || r.kind == 5 || r.kind == 6;
        snprintf(line, sizeof line, one ? "%02x%02x\n" : "%02x%02x%02x\n", r.kind & 255, r.x & 255, r.y & 255);
        memcpy(input + length, line, strlen(line));
        length += strlen(line);
    }
    return begun ? length - 1 : length;
}

/* How often a call is tried on each bench. */
static uint32_t tries(enum call call) {
    return call == EMPTY || call == SOUND || call == VERSION ? 1 : call == LIST || call == PLAY || call == FINISH ? 9 : call >= TEXT_SIZE ? 6 : 4 * 65;
}

/* The arguments of try n on the bench; how many there are. */
static uint64_t prepare(enum call call, uint32_t n, uint64_t *argument) {
    const uint32_t a = n % 65, i = n < 65 ? a : n < 130 ? 64 + a % 64 : n < 195 ? 0 : 128;
    uint32_t k;
    size_t lent;
    memset(argument, 0, MOST_ARGUMENTS * sizeof *argument);
    argument[0] = (uint64_t)bench.actions;
    argument[1] = sizeof bench.actions;
    argument[2] = (uint64_t)bench.owners;
    argument[3] = sizeof bench.owners / sizeof *bench.owners;
    switch (call) {
    case VERSION: return 0;
    case EMPTY:
    case SOUND: return 4;
    case OPEN_TOP:
    case COMMIT:
    case ABORT: argument[4] = a; return 5;
    case OPEN_SUB:
        argument[4] = a;
        argument[5] = n % 64;
        if (n >= 130) { /* a number that was freed just before, under its parent */
            argument[5] = (uint64_t)dikothelm_parent(&bench, a) & 63;
            dikothelm_abort(&bench, a);
        }
        return 6;
    case READ:
    case WRITE:
    case QUIET:
        argument[4] = a;
        argument[5] = i;
        return 6;
    case LIST:
        for (k = 0; k <= DIKOTHELM_LONGEST_LIST; k++) list[k] = any_request(n * 31 + k);
        if (n == 7) for (k = 0; k < DIKOTHELM_LONGEST_LIST; k++) list[k].kind = DIKOTHELM_ABORT, list[k].x = k;
        argument[4] = (uint64_t)list;
        argument[5] = 4 * (n == 8 ? DIKOTHELM_LONGEST_LIST + 1 : DIKOTHELM_LONGEST_LIST);
        return 6;
    case TEXT_SIZE: argument[4] = (uint64_t)&count; return 5;
    case SAVE:
        argument[4] = (uint64_t)out;
        argument[5] = n < 3 ? DIKOTHELM_LONGEST_TEXT : n;
        argument[6] = (uint64_t)&count;
        return 7;
    case LOAD:
        if (dikothelm_save(&bench, text, sizeof text, &lent) != DIKOTHELM_ACCEPTED) lent = (size_t)snprintf((char *)text, sizeof text, n == 0 ? "113e013f\n113f013e\n" : "113f02ff\n");
        if (n == 1 && lent > 0) lent--;
        if (n == 2 && lent > 0) text[lent / 2] = 'x';
        if (n == 3) text[lent++] = '\n';
        if (n == 4 && lent > 0) text[1] = '2';
        if (n == 5 && lent > 7) memcpy(text + 4, "02ff", 4);
        argument[4] = (uint64_t)text;
        argument[5] = lent;
        return 6;
    default:
        memset(progress, 0, sizeof progress);
        argument[4] = (uint64_t)progress;
        argument[5] = n == 8 ? DIKOTHELM_PROGRESS + 1 : DIKOTHELM_PROGRESS;
        if (call == FINISH) {
            /* a begun line of each kind */
            dikothelm_play(&bench, progress, input, trace(n, 1, 1), out, sizeof out);
            argument[6] = (uint64_t)out;
            argument[7] = sizeof out;
            return 8;
        }
        argument[6] = (uint64_t)input;
        argument[7] = trace(n * 64, n == 7 ? 1 : LINES, (int)n & 1);
        argument[8] = (uint64_t)out;
        argument[9] = n == 6 ? 2 : sizeof out;
        return 10;
    }
}

/* ---- painted */

static uint64_t painted[ROOM / 8] __attribute__((aligned(64)));

/* The bytes of stack that a call took, with a stack painted so before. */
static size_t taken(enum call call, uint64_t paint, const uint64_t *argument, uint64_t many, uint64_t *answer) {
    size_t k;
    for (k = 0; k < ROOM / 8; k++) painted[k] = paint;
    *answer = stack_call(painted + ROOM / 8, calls[call].function, argument, many);
    for (k = 0; k < ROOM / 8 && painted[k] == paint; k++) {}
    return ROOM - 8 * k;
}

static size_t larger(size_t x, size_t y) { return x > y ? x : y; }

static int measure(void) {
    static const uint64_t paints[2] = {0xa5a5a5a5a5a5a5a5u, 0};
    int call, which, paint;
    printf("%-12s %9s %8s %7s\n", "call", "accepted", "refused", "stated");
    for (call = 0; call < CALLS; call++) {
        size_t most[2] = {0, 0};
        uint32_t n;
        for (which = 0; which < BENCHES; which++)
            for (n = 0; n < tries((enum call)call); n++)
                for (paint = 0; paint < 2; paint++) {
                    uint64_t argument[MOST_ARGUMENTS], many, answer;
                    size_t bytes;
                    bench = benches[which];
                    many = prepare((enum call)call, n, argument);
                    bytes = taken((enum call)call, paints[paint], argument, many, &answer);
                    most[call != VERSION && (answer & 255) != 0] = larger(most[call != VERSION && (answer & 255) != 0], bytes);
                }
        printf("%-12s %9zu ", calls[call].name, most[0]);
        if (most[1] > 0) printf("%8zu", most[1]);
        else printf("%8s", "-");
        printf(" %7u\n", calls[call].stated);
    }
    return 0;
}

/* ---- with a guard page */

static uint8_t *guard;
static sigjmp_buf touched;

static void on_fault(int number, siginfo_t *info, void *context) {
    (void)number;
    (void)context;
    if ((uint8_t *)info->si_addr >= guard && (uint8_t *)info->si_addr < guard + PAGE) siglongjmp(touched, 1);
    _exit(3);
}

/* Whether all tries of a call stay within a stack of a size. */
static int stays_within(enum call call, size_t size) {
    volatile int which;
    volatile uint32_t n;
    for (which = 0; which < BENCHES; which++)
        for (n = 0; n < tries(call); n++) {
            uint64_t argument[MOST_ARGUMENTS], many;
            bench = benches[which];
            many = prepare(call, n, argument);
            if (sigsetjmp(touched, 1)) return 0;
            stack_call(guard + PAGE + size, calls[call].function, argument, many);
        }
    return 1;
}

static int check(void) {
    static uint8_t handlers_stack[ROOM];
    struct sigaction action;
    stack_t other;
    int call, failed = 0;
    guard = mmap(NULL, PAGE + ROOM, PROT_READ | PROT_WRITE, MAP_PRIVATE | MAP_ANONYMOUS, -1, 0);
    if (guard == MAP_FAILED || mprotect(guard, PAGE, PROT_NONE) != 0) return 2;
    memset(&other, 0, sizeof other);
    other.ss_sp = handlers_stack;
    other.ss_size = sizeof handlers_stack;
    memset(&action, 0, sizeof action);
    action.sa_sigaction = on_fault;
    action.sa_flags = SA_SIGINFO | SA_ONSTACK;
    if (sigaltstack(&other, NULL) != 0 || sigaction(SIGSEGV, &action, NULL) != 0 || sigaction(SIGBUS, &action, NULL) != 0) return 2;
    for (call = 0; call < CALLS; call++) {
        const size_t size = calls[call].stated;
        const int stays = size % 16 == 0 && size < ROOM && stays_within((enum call)call, size), fails = !stays_within((enum call)call, size / 32 * 16);
        /* the smallest calls share a figure with larger ones */
        if (stays && (fails || call == VERSION)) continue;
        printf("%s: %zu bytes of stack are %s\n", calls[call].name, size, stays ? "more than twice what it takes" : "too few");
        failed = 1;
    }
    return failed;
}

int main(int words, char **word) {
    int which;
    for (which = 0; which < BENCHES; which++) make(&benches[which], which);
    if (words == 2 && strcmp(word[1], "measure") == 0) return measure();
    if (words == 2 && strcmp(word[1], "check") == 0) return check();
    fputs("usage: stack measure|check\n", stderr);
    return 2;
}
