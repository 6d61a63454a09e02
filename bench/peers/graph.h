/* Reading a graph form and preparing its reads, for both peers. Vertices ascend along a path and along a read, so each is one 64-bit set. */
#ifndef PEER_GRAPH_H
#define PEER_GRAPH_H
#include <stddef.h>
#include <stdint.h>

enum { MAX_N = 64, MAX_ARCS = 256, MAX_READS = 16 };

struct peer_graph {
    int n, arcs, reads;
    int64_t opening;
    uint64_t starts, ends;
    uint32_t demand[MAX_N];
    uint64_t heads[MAX_N];      /* heads of the arcs that leave a vertex */
    uint16_t arc[MAX_N][MAX_N]; /* number of the arc from a vertex to another, where there is one; set nowhere else */
    uint8_t tail[MAX_ARCS], head[MAX_ARCS];
    uint32_t cost[MAX_ARCS], arc_demand[MAX_ARCS];
    uint64_t read[MAX_READS];
    int prepared_count;         /* set by peer_prepare */
    uint64_t prepared[MAX_READS];
};

static inline uint32_t peer_be32(const uint8_t *p) {
    return (uint32_t)p[0] << 24 | (uint32_t)p[1] << 16 | (uint32_t)p[2] << 8 | p[3];
}

static inline int peer_low(uint64_t set) { return __builtin_ctzll(set); }
static inline int peer_high(uint64_t set) { return 63 - __builtin_clzll(set); }

/* all vertices from v on; all up to v */
static inline uint64_t peer_from(int v) { return ~0ULL << v; }
static inline uint64_t peer_to(int v) { return ~0ULL >> (63 - v); }

/* whether path holds the vertices of read one right after the other */
static inline int peer_holds(uint64_t path, uint64_t read) {
    return (path & peer_from(peer_low(read)) & peer_to(peer_high(read))) == read;
}

static inline uint64_t peer_refuse(uint64_t number, uint64_t at, uint64_t *place) {
    *place = at;
    return number;
}

static inline uint64_t peer_read(const uint8_t *s, size_t len, struct peer_graph *g, uint64_t *place) {
    if (len < 13 || peer_be32(s) != len) return peer_refuse(1, 0, place);
    if (s[4] != 1) return peer_refuse(2, 4, place);
    int n = s[5], arcs = s[6] << 8 | s[7], reads = s[8];
    if (n < 1 || n > MAX_N) return peer_refuse(3, 5, place);
    if (arcs > MAX_ARCS) return peer_refuse(3, 6, place);
    if (reads > MAX_READS) return peer_refuse(3, 8, place);
    uint32_t opening = peer_be32(s + 9);
    if (opening > 1000000000) return peer_refuse(4, 9, place);
    g->n = n, g->arcs = arcs, g->reads = reads, g->opening = opening;
    g->starts = g->ends = 0;
    size_t at = 13;
    for (int v = 0; v < n; v++, at += 5) {
        if (at + 5 > len) return peer_refuse(5, at, place);
        uint32_t demand = peer_be32(s + at + 1);
        if (s[at] > 3 || demand > 1000000) return peer_refuse(4, at, place);
        g->starts |= (uint64_t)(s[at] & 1) << v;
        g->ends |= (uint64_t)(s[at] >> 1) << v;
        g->demand[v] = demand;
        g->heads[v] = 0;
    }
    int before = -1;
    for (int a = 0; a < arcs; a++, at += 10) {
        if (at + 10 > len) return peer_refuse(5, at, place);
        int tail = s[at], head = s[at + 1];
        uint32_t cost = peer_be32(s + at + 2), demand = peer_be32(s + at + 6);
        if (cost > 1000000 || demand > 1000000) return peer_refuse(4, at, place);
        if (tail >= head || head >= n || tail * 256 + head <= before) return peer_refuse(6, at, place);
        before = tail * 256 + head;
        g->heads[tail] |= 1ULL << head;
        g->arc[tail][head] = (uint16_t)a;
        g->tail[a] = (uint8_t)tail, g->head[a] = (uint8_t)head, g->cost[a] = cost, g->arc_demand[a] = demand;
    }
    for (int r = 0; r < reads; r++) {
        if (at + 1 > len) return peer_refuse(5, at, place);
        int count = s[at];
        if (count < 2 || count > 16) return peer_refuse(7, at, place);
        if (at + 1 + count > len) return peer_refuse(5, at, place);
        uint64_t set = 0;
        int last = -1;
        for (int i = 0; i < count; i++) {
            int v = s[at + 1 + i];
            if (v >= n || (last >= 0 && !(g->heads[last] >> v & 1))) return peer_refuse(7, at, place);
            set |= 1ULL << v;
            last = v;
        }
        g->read[r] = set;
        at += 1 + (size_t)count;
    }
    if (at != len) return peer_refuse(5, at, place);
    return peer_refuse(0, 0, place);
}

/* Steps 1 and 2. A suffix of a that is a prefix of b must begin at b's first vertex and end at a's last, so there is at most one. */
static inline void peer_prepare(struct peer_graph *g) {
    uint64_t *kept = g->prepared;
    int count = 0;
    for (int i = 0; i < g->reads; i++) {
        int drop = 0;
        for (int j = 0; j < g->reads && !drop; j++) {
            if (g->read[i] == g->read[j] ? j < i : peer_holds(g->read[j], g->read[i])) drop = 1;
        }
        if (!drop) kept[count++] = g->read[i];
    }
    for (;;) {
        int best = 0, from = 0, to = 0;
        for (int i = 0; i < count; i++) {
            for (int j = 0; j < count; j++) {
                uint64_t a = kept[i], b = kept[j];
                int first = peer_low(b), last = peer_high(a);
                if (i == j || first <= peer_low(a) || last >= peer_high(b) || last < first) continue;
                uint64_t common = a & peer_from(first);
                if (common != (b & peer_to(last))) continue;
                int length = __builtin_popcountll(common);
                if (length > best) best = length, from = i, to = j;
            }
        }
        if (best == 0) break;
        int low = from < to ? from : to, high = from < to ? to : from;
        kept[low] |= kept[high];
        for (int i = high; i + 1 < count; i++) kept[i] = kept[i + 1];
        count--;
    }
    g->prepared_count = count;
}

/* Rests: what vertices and arcs ask for beside the prepared reads; and the cost of each prepared read's arcs. */
static inline void peer_rests(const struct peer_graph *g, uint32_t *rest, uint32_t *arc_rest, int64_t *read_cost) {
    for (int v = 0; v < g->n; v++) rest[v] = g->demand[v];
    for (int a = 0; a < g->arcs; a++) arc_rest[a] = g->arc_demand[a];
    for (int r = 0; r < g->prepared_count; r++) {
        int64_t cost = 0;
        int last = -1;
        for (uint64_t set = g->prepared[r]; set; set &= set - 1) {
            int v = peer_low(set);
            if (rest[v]) rest[v]--;
            if (last >= 0) {
                int a = g->arc[last][v];
                if (arc_rest[a]) arc_rest[a]--;
                cost += g->cost[a];
            }
            last = v;
        }
        read_cost[r] = cost;
    }
}
#endif
