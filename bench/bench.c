/* Times the library's builder and checker and their unproved peers on sets of graph forms, in one process, call by call.
 *
 *     bench SET..      each SET is a file of graph forms, each behind its length in four bytes
 *
 * For each set a line: set SET FORMS BUILDER LEMON CHECKER C-CHECKER READER, nanoseconds a form. The answers that the library's builder wrote go to SET.answers. Then for each call a line: stack CALL BYTES, the most that any
 * form of the sets took, on a stack that was painted before.
 */
#define _GNU_SOURCE
#include <stdio.h>
#include <stdlib.h>
#include <string.h>
#include <time.h>
#include <ucontext.h>

#include "../crates/calls/calls.h"
#include "peers/peers.h"

enum { ROOM = 32543, MOST = 4096, STACK = 1 << 20, LEAST_TURNS = 50 };

static const uint64_t LEAST_TIME = 3000000000u;

struct form {
    uint8_t *graph, *answer;
    size_t graph_len, answer_len;
};

static struct form forms[MOST];
static size_t count;
static uint8_t out[ROOM];
static const struct form *now; /* what a call that is timed or measured works on */
static volatile uint64_t sink;

static void die(const char *what) {
    fprintf(stderr, "bench: %s\n", what);
    exit(1);
}

/* The calls, each on the form at hand. */
static void library_build(void) { sink += build_answer_form(now->graph, now->graph_len, out, ROOM).number; }
static void peer_builds(void) {
    uint64_t number, place;
    sink += peer_build(now->graph, now->graph_len, out, ROOM, &number, &place);
}
static void library_check(void) { sink += check_answer_form(now->graph, now->graph_len, now->answer, now->answer_len).number; }
static void peer_checks(void) {
    uint64_t place;
    sink += peer_check(now->graph, now->graph_len, now->answer, now->answer_len, &place);
}
static void library_read(void) { sink += read_graph_form(now->graph, now->graph_len).number; }
static void library_path(void) { sink += hand_out_path(now->graph, now->graph_len, now->answer, now->answer_len, 0).length; }
static void nothing(void) {}

static uint64_t nanoseconds(void) {
    struct timespec t;
    clock_gettime(CLOCK_MONOTONIC, &t);
    return (uint64_t)t.tv_sec * 1000000000u + (uint64_t)t.tv_nsec;
}

static uint64_t once(void (*call)(void)) {
    uint64_t start = nanoseconds();
    call();
    return nanoseconds() - start;
}

/* Nanoseconds a form of each call: for each form the least of many times, so that what else the machine does drops out. The calls take
 * turns, each going through the whole set, as a run over genes does. What it takes to look at the clock is taken off. */
static void timed(void (**calls)(void), double *mean, int kinds) {
    static uint64_t best[MOST][8];
    uint64_t clock = ~0ull;
    for (size_t i = 0; i < count; i++)
        for (int k = 0; k < kinds; k++) best[i][k] = ~0ull;
    uint64_t start = nanoseconds();
    for (int turn = 0; turn < LEAST_TURNS || nanoseconds() - start < LEAST_TIME; turn++)
        for (int k = 0; k <= kinds; k++)
            for (size_t i = 0; i < count; i++) {
                now = &forms[i];
                uint64_t taken = once(k < kinds ? calls[k] : nothing);
                uint64_t *least = k < kinds ? &best[i][k] : &clock;
                if (taken < *least) *least = taken;
            }
    for (int k = 0; k < kinds; k++) {
        mean[k] = 0;
        for (size_t i = 0; i < count; i++) mean[k] += (double)(best[i][k] - clock) / (double)count;
    }
}

static void load(const char *name) {
    FILE *f = fopen(name, "rb");
    uint8_t head[4];
    if (f == NULL) die(name);
    count = 0;
    while (fread(head, 1, 4, f) == 4) {
        struct form *form = &forms[count++];
        if (count == MOST) die("too many forms");
        form->graph_len = (size_t)head[0] << 24 | (size_t)head[1] << 16 | (size_t)head[2] << 8 | head[3];
        form->graph = malloc(form->graph_len);
        if (fread(form->graph, 1, form->graph_len, f) != form->graph_len) die("a form is cut short");
    }
    fclose(f);
}

/* The answers of the library's builder, held against the peers. */
static void build_all(const char *name) {
    char path[4096];
    snprintf(path, sizeof path, "%s.answers", name);
    FILE *f = fopen(path, "wb");
    if (f == NULL) die(path);
    for (size_t i = 0; i < count; i++) {
        struct form *form = &forms[i];
        uint64_t number, place;
        uint8_t price[8];
        struct built_form built = build_answer_form(form->graph, form->graph_len, out, ROOM);
        if (built.number != 0) die("the builder refuses");
        uint64_t written = built.written;
        form->answer_len = written;
        form->answer = malloc(written);
        memcpy(form->answer, out, written);
        memcpy(price, out + 7, 8);
        if (check_answer_form(form->graph, form->graph_len, form->answer, written).number != 0) die("the checker refuses");
        if (peer_check(form->graph, form->graph_len, form->answer, written, &place) != 0) die("the C checker refuses");
        if (peer_build(form->graph, form->graph_len, out, ROOM, &number, &place) == 0 || memcmp(price, out + 7, 8) != 0) die("LEMON has another price");
        uint8_t head[4] = {(uint8_t)(written >> 24), (uint8_t)(written >> 16), (uint8_t)(written >> 8), (uint8_t)written};
        fwrite(head, 1, 4, f);
        fwrite(form->answer, 1, written, f);
    }
    fclose(f);
}

/* How many bytes of stack a call takes: it runs on a painted stack, and the lowest byte that lost its paint is looked for. */
static uint8_t *stack;
static ucontext_t here, there;
static void (*measured)(void);

static void on_stack(void) { measured(); }

static size_t stack_of(void (*call)(void)) {
    memset(stack, 0xa5, STACK);
    measured = call;
    getcontext(&there);
    there.uc_stack.ss_sp = stack;
    there.uc_stack.ss_size = STACK;
    there.uc_link = &here;
    makecontext(&there, on_stack, 0);
    swapcontext(&here, &there);
    size_t low = 0;
    while (low < STACK && stack[low] == 0xa5) low++;
    return STACK - low;
}

struct need {
    const char *name;
    void (*call)(void);
    size_t most;
};

int main(int argc, char **argv) {
    struct need needs[] = {{"read_graph_form", library_read, 0},   {"check_answer_form", library_check, 0}, {"hand_out_path", library_path, 0},
                           {"build_answer_form", library_build, 0}, {"peer_check", peer_checks, 0},          {"peer_build", peer_builds, 0}};
    enum { NEEDS = sizeof needs / sizeof *needs };
    stack = malloc(STACK);
    now = &forms[0];
    size_t none = stack_of(nothing);
    for (int a = 1; a < argc; a++) {
        void (*calls[])(void) = {library_build, peer_builds, library_check, peer_checks, library_read};
        double best[5];
        load(argv[a]);
        build_all(argv[a]);
        timed(calls, best, 5);
        printf("set %s %zu", argv[a], count);
        for (int k = 0; k < 5; k++) printf(" %.0f", best[k]);
        printf("\n");
        fflush(stdout);
        for (size_t i = 0; i < count; i++)
            for (int k = 0; k < NEEDS; k++) {
                now = &forms[i];
                size_t need = stack_of(needs[k].call) - none;
                if (need > needs[k].most) needs[k].most = need;
            }
    }
    for (int k = 0; k < NEEDS; k++) printf("stack %s %zu\n", needs[k].name, needs[k].most);
    return 0;
}
