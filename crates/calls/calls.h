/* The library's calls for C, C++ and Rust; `tools/build calls` writes the archive, crates/calls/out/libcalls.a. Contracts: crates/calls/src/lib.rt.
 *
 * Each takes every byte string and comes to an end. A slice is a pointer and a length. Number and place are returned by value; both are 0
 * where nothing is refused, and docs/FORMS.md says what each number means and where its place is. Nothing that is lent changes but out, and
 * out not where a call refuses.
 *
 * What the caller owes, since no contract can speak of it: each pointer is valid for the length beside it (for length 0 it may be any but
 * null) until the call returns; out overlaps no input; and the stack has room. In bytes, as measured in docs/BENCHMARK.md, the calls take
 * 240 (read_graph_form), 7,176 (check_answer_form), 7,240 (hand_out_path) and 82,504 (build_answer_form).
 *
 * Calls may run in several threads at once: the library has no memory of its own, each call works on what it is lent. While a call runs,
 * no other thread may change its inputs or touch its out.
 */
#ifndef CALLS_H
#define CALLS_H
#include <stddef.h>
#include <stdint.h>

#ifdef __cplusplus
extern "C" {
#endif

struct refusal {
    uint64_t number, place;
};

struct handed_out_part {
    uint64_t number, place, offset, length;
};

struct built_form {
    uint64_t number, place, written;
};

/* Numbers 1 to 7. */
struct refusal read_graph_form(const uint8_t *graph, size_t graph_len);

/* Numbers 1 to 7 and 11 to 22. */
struct refusal check_answer_form(const uint8_t *graph, size_t graph_len, const uint8_t *answer, size_t answer_len);

/* Numbers 1 to 7 and 11 to 23. Checks the answer and hands out path k as a part of it: the path's vertices, a byte each, are the length
 * bytes from answer + offset on, and lie within the answer. Both are 0 where the call refuses. They speak of the answer as it was checked:
 * a caller who changes it has to ask again. */
struct handed_out_part hand_out_path(const uint8_t *graph, size_t graph_len, const uint8_t *answer, size_t answer_len, uint64_t k);

/* Numbers 1 to 9. Writes the answer form of a lowest-price cover at the front of out; written is how many bytes, 0 where it refuses.
 * 32,543 bytes do. */
struct built_form build_answer_form(const uint8_t *graph, size_t graph_len, uint8_t *out, size_t out_len);

struct filled_list {
    uint64_t number, place, written;
};

/* Numbers 30, 32 and 33. For each exon: demands gets bases / lengths, cut off; written is how many entries, 0 where it refuses. The three
 * lists have one length, 1 to 256; 30, place 0, where not. The place of 32 and 33 is the exon's number, from 0. */
struct filled_list demands_from_counts(const uint32_t *bases, size_t bases_len, const uint32_t *lengths, size_t lengths_len, uint32_t *demands, size_t demands_len);

#ifdef __cplusplus
}
#endif
#endif
