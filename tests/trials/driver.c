/* Calls the library on cases from standard input and prints what it answers, a line for each case. It judges only one thing itself: that
 * no byte changed that may not change. Everything else is compared by trials.py.
 *
 * A case is a letter and its parts; a part is a length (four bytes, high byte first) and that many bytes.
 *   r graph                 NUMBER PLACE
 *   c graph answer          NUMBER PLACE
 *   h graph answer k        NUMBER PLACE OFFSET COUNT BYTES    (k: eight bytes, high byte first)
 *   b graph room            NUMBER PLACE COUNT BYTES           (room: four bytes, high byte first)
 * BYTES are hexadecimal, '-' for none: the COUNT bytes of the answer from OFFSET on, or the first COUNT of the output. Where the part
 * does not lie within the answer, 'outside' stands for them. Where a byte changed that may not, the line goes on with 'changed' and where.
 *
 * Each lent buffer lies in pages of its own, filled with a pattern, between two pages that may not be touched: in turn at the very end
 * of its pages, so that a byte read or written behind it ends the driver, and at the very beginning, for a byte before it.
 */
#define _GNU_SOURCE
#include <stdint.h>
#include <stdio.h>
#include <stdlib.h>
#include <string.h>
#include <sys/mman.h>

#include "../../crates/calls/calls.h"

enum { PAGE = 4096, PAGES = 10, SPACE = PAGE * PAGES };

struct lent {
    uint8_t *space; /* PAGES pages between two that may not be touched */
    uint8_t *at;    /* the buffer, somewhere in them */
    size_t length;
};

static uint8_t pattern(size_t i) { return (uint8_t)(0xa5 ^ i * 37 ^ i >> 8); }

static void die(const char *what) {
    fprintf(stderr, "driver: %s\n", what);
    exit(2);
}

static struct lent lend(void) {
    uint8_t *all = mmap(NULL, SPACE + 2 * PAGE, PROT_READ | PROT_WRITE, MAP_PRIVATE | MAP_ANONYMOUS, -1, 0);
    if (all == MAP_FAILED || mprotect(all, PAGE, PROT_NONE) != 0 || mprotect(all + PAGE + SPACE, PAGE, PROT_NONE) != 0) die("no memory");
    return (struct lent){all + PAGE, all + PAGE, 0};
}

static void place_in(struct lent *buffer, size_t length, int at_end) {
    if (length > SPACE) die("a part is too long");
    for (size_t i = 0; i < SPACE; i++) buffer->space[i] = pattern(i);
    buffer->length = length;
    buffer->at = at_end ? buffer->space + SPACE - length : buffer->space;
}

/* The first byte of the pages that differs from the pattern, leaving out `own` bytes from the front of the buffer; -1 for none. */
static long changed(const struct lent *buffer, size_t own) {
    size_t from = (size_t)(buffer->at - buffer->space);
    for (size_t i = 0; i < SPACE; i++)
        if ((i < from || i >= from + own) && buffer->space[i] != pattern(i)) return (long)i - (long)from;
    return -1;
}

static int read_all(uint8_t *to, size_t length) { return fread(to, 1, length, stdin) == length; }

static uint64_t number_of(const uint8_t *bytes, size_t length) {
    uint64_t number = 0;
    for (size_t i = 0; i < length; i++) number = number << 8 | bytes[i];
    return number;
}

static uint64_t read_number(size_t length) {
    uint8_t bytes[8];
    if (!read_all(bytes, length)) die("a case is cut short");
    return number_of(bytes, length);
}

static uint8_t *kept[2];

static void read_part(struct lent *buffer, int which, int at_end) {
    place_in(buffer, (size_t)read_number(4), at_end);
    if (!read_all(buffer->at, buffer->length)) die("a case is cut short");
    memcpy(kept[which], buffer->at, buffer->length);
}

static void say(uint64_t number) { printf("%llu", (unsigned long long)number); }

static void say_refusal(struct refusal got) {
    say(got.number);
    printf(" ");
    say(got.place);
}

static void say_changed(const char *name, long at) { printf(" changed %s %ld", name, at); }

static void look_at_input(const char *name, const struct lent *buffer, int which) {
    for (size_t i = 0; i < buffer->length; i++)
        if (buffer->at[i] != kept[which][i]) {
            say_changed(name, (long)i);
            return;
        }
    if (changed(buffer, buffer->length) >= 0) say_changed(name, changed(buffer, buffer->length));
}

static void say_bytes(const uint8_t *from, size_t length) {
    printf(length == 0 ? " -" : " ");
    for (size_t i = 0; i < length; i++) printf("%02x", from[i]);
}

/* Number, place, offset and length, then the bytes that stand there in the answer. */
static void say_part(const struct lent *answer, struct handed_out_part got) {
    say_refusal((struct refusal){got.number, got.place});
    printf(" ");
    say(got.offset);
    printf(" ");
    say(got.length);
    if (got.offset > answer->length || got.length > answer->length - got.offset)
        printf(" outside");
    else
        say_bytes(answer->at + got.offset, (size_t)got.length);
}

/* Number, place and count, then the bytes: on a refusal none may have changed; else none behind those that were written. */
static void say_output(const struct lent *out, struct refusal got, uint64_t count) {
    uint64_t number = got.number;
    say_refusal(got);
    printf(" ");
    say(count);
    if (count > out->length || (number != 0 && count != 0)) printf(" changed count %llu", (unsigned long long)count);
    size_t own = number != 0 || count > out->length ? 0 : (size_t)count;
    say_bytes(out->at, own);
    if (changed(out, own) >= 0) say_changed("out", changed(out, own));
}

int main(void) {
    struct lent graph = lend(), answer = lend(), out = lend();
    kept[0] = malloc(SPACE);
    kept[1] = malloc(SPACE);
    if (kept[0] == NULL || kept[1] == NULL) die("no memory");
    int kind, turn = 0;
    while ((kind = getchar()) != EOF) {
        turn++;
        read_part(&graph, 0, turn % 2);
        if (kind == 'c' || kind == 'h') read_part(&answer, 1, turn / 2 % 2);
        if (kind == 'r') {
            say_refusal(read_graph_form(graph.at, graph.length));
        } else if (kind == 'c') {
            say_refusal(check_answer_form(graph.at, graph.length, answer.at, answer.length));
        } else if (kind == 'h') {
            uint64_t k = read_number(8);
            say_part(&answer, hand_out_path(graph.at, graph.length, answer.at, answer.length, k));
        } else if (kind == 'b') {
            place_in(&out, (size_t)read_number(4), turn / 2 % 2);
            struct built_form built = build_answer_form(graph.at, graph.length, out.at, out.length);
            say_output(&out, (struct refusal){built.number, built.place}, built.written);
        } else {
            die("no such case");
        }
        look_at_input("graph", &graph, 0);
        if (kind == 'c' || kind == 'h') look_at_input("answer", &answer, 1);
        printf("\n");
        fflush(stdout);
    }
    return 0;
}
