/* Random base counts through the archive's demands_from_counts, against whole-number division. The three lists stand in larger ones whose
 * other entries are watched; on a refusal no entry may change.
 *
 *     driver SEED PAIRS    tries lists of exons until PAIRS counts were compared, then says how many lists passed
 */
#include "../../crates/calls/calls.h"
#include <inttypes.h>
#include <stdio.h>
#include <stdlib.h>
#include <string.h>

#define ROOM 272 /* entries of a list that are lent at most: 257 and some */
#define WATCH 16 /* entries watched in front of a list and behind it */
#define WHOLE (ROOM + 2 * WATCH)
#define HELD UINT32_C(0xabababab)

static uint64_t state;

static uint64_t drawn(void) {
    state ^= state << 13;
    state ^= state >> 7;
    state ^= state << 17;
    return state;
}

static uint64_t below(uint64_t n) { return (drawn() >> 11) % n; }

struct lists {
    uint32_t bases[WHOLE], lengths[WHOLE], demands[WHOLE];
};

/* Document 02, #110, once more. */
static struct filled_list wanted(const struct lists *held, size_t bases, size_t lengths, size_t demands, uint32_t *out) {
    if (bases != lengths || lengths != demands || demands < 1 || demands > 256) return (struct filled_list){30, 0, 0};
    for (size_t exon = 0; exon < bases; exon++) {
        uint32_t length = held->lengths[WATCH + exon];
        if (length < 1 || length > 1000000) return (struct filled_list){32, exon, 0};
        if (held->bases[WATCH + exon] / length > 1000000) return (struct filled_list){33, exon, 0};
    }
    for (size_t exon = 0; exon < bases; exon++) out[exon] = held->bases[WATCH + exon] / held->lengths[WATCH + exon];
    return (struct filled_list){0, 0, bases};
}

/* Counts of one exon: any, or close to a whole number of lengths, where rounding would show. */
static void draw_exon(uint32_t *bases, uint32_t *length) {
    static const uint32_t ends[] = {1, 2, 3, 4294, 4295, 524287, 524288, 999999, 1000000};
    *length = below(4) ? 1 + below(1000000) : ends[below(sizeof ends / sizeof *ends)];
    uint64_t most = UINT32_MAX / *length < 1000000 ? UINT32_MAX / *length : 1000000;
    uint64_t near = below(most + 1) * *length + below(3);
    *bases = below(3) ? (near ? near - 1 : 0) : below(most * *length + 1);
}

static void spoil(struct lists *held, size_t exons) {
    static const uint32_t wrong[] = {0, 1000001, UINT32_MAX};
    size_t exon = WATCH + below(exons);
    if (below(2)) {
        held->lengths[exon] = wrong[below(3)];
    } else {
        held->lengths[exon] = 1 + below(4000);
        held->bases[exon] = UINT32_C(1000001) * held->lengths[exon] + below(2);
    }
}

int main(int argc, char **argv) {
    static struct lists held, before;
    uint64_t pairs = 0, most, passed = 0, failed = 0, refused[4] = {0};
    if (argc != 3) return 2;
    state = strtoull(argv[1], NULL, 10) * 2 + 1;
    most = strtoull(argv[2], NULL, 10);
    while (pairs < most) {
        uint64_t size = below(8);
        size_t exons = size == 0 ? 1 : size == 1 ? 256 : 1 + below(256);
        size_t bases = exons, lengths = exons, demands = exons;
        for (size_t i = 0; i < WHOLE; i++) held.bases[i] = held.lengths[i] = held.demands[i] = HELD;
        for (size_t exon = 0; exon < exons; exon++) draw_exon(&held.bases[WATCH + exon], &held.lengths[WATCH + exon]);
        for (uint64_t faults = below(6); faults > 3; faults--) spoil(&held, exons);
        switch (below(24)) {
        case 0: bases += 1; break;
        case 1: lengths -= 1; break;
        case 2: demands += 1; break;
        case 3: bases = lengths = demands = below(2) ? 0 : 257; break;
        }
        before = held;
        struct filled_list want = wanted(&before, bases, lengths, demands, before.demands + WATCH);
        struct filled_list got = demands_from_counts(held.bases + WATCH, bases, held.lengths + WATCH, lengths, held.demands + WATCH, demands);
        if (got.number == want.number && got.place == want.place && got.written == want.written && memcmp(&held, &before, sizeof held) == 0) {
            passed++;
        } else {
            failed++;
            printf("list %" PRIu64 ": got %" PRIu64 " %" PRIu64 " %" PRIu64 ", wanted %" PRIu64 " %" PRIu64 " %" PRIu64 "\n", passed + failed, got.number, got.place,
                   got.written, want.number, want.place, want.written);
        }
        refused[want.number == 0 ? 0 : want.number == 30 ? 1 : want.number == 32 ? 2 : 3]++;
        pairs += want.written;
    }
    printf("%" PRIu64 " pairs compared; lists written %" PRIu64 ", refused 30 %" PRIu64 ", 32 %" PRIu64 ", 33 %" PRIu64 "\n", pairs, refused[0], refused[1], refused[2], refused[3]);
    if (!refused[1] || !refused[2] || !refused[3]) failed++;
    printf("%" PRIu64 " passed, %" PRIu64 " failed\n", passed, failed);
    return failed != 0;
}
