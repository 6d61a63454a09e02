/* The unproved peers of the library, for the benchmark: each is one function on pointers and lengths.
 *
 * peer_check   answers the number of the refusal (1 to 7, 11 to 22; 0 where the answer is accepted) and stores its place.
 * peer_build   writes an answer form at the front of out and answers how many bytes it wrote; on a refusal (1 to 9) it writes nothing
 *              and answers 0. Number and place are stored in both cases.
 */
#ifndef PEERS_H
#define PEERS_H
#include <stddef.h>
#include <stdint.h>

#ifdef __cplusplus
extern "C" {
#endif

uint64_t peer_check(const uint8_t *graph, size_t graph_len, const uint8_t *answer, size_t answer_len, uint64_t *place);
size_t peer_build(const uint8_t *graph, size_t graph_len, uint8_t *out, size_t room, uint64_t *number, uint64_t *place);

#ifdef __cplusplus
}
#endif
#endif
