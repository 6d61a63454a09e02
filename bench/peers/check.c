/* A plain checker of the same rules, as a C programmer would write it for speed. Nothing of it is proved. */
#include "graph.h"
#include "peers.h"

uint64_t peer_check(const uint8_t *graph, size_t graph_len, const uint8_t *s, size_t len, uint64_t *place) {
    struct peer_graph g;
    uint64_t number = peer_read(graph, graph_len, &g, place);
    if (number) return number;

    size_t n = (size_t)g.n;
    if (len < 15 + 8 * n || peer_be32(s) != len) return peer_refuse(11, 0, place);
    if (s[4] != 1) return peer_refuse(12, 4, place);
    int paths = s[5] << 8 | s[6];
    if (paths > 464) return peer_refuse(13, 5, place);
    uint64_t stated = (uint64_t)peer_be32(s + 7) << 32 | peer_be32(s + 11);

    int64_t in[MAX_N], out[MAX_N];
    size_t at = 15;
    for (size_t v = 0; v < n; v++, at += 8) {
        in[v] = (int32_t)peer_be32(s + at);
        out[v] = (int32_t)peer_be32(s + at + 4);
        if (in[v] < -2000000000 || in[v] > 2000000000) return peer_refuse(14, at, place);
        if (out[v] < -2000000000 || out[v] > 2000000000) return peer_refuse(14, at + 4, place);
    }

    uint64_t through[MAX_N] = {0}, arc_through[MAX_ARCS] = {0}, total = 0, price = 0, before = 0;
    uint32_t met = 0;
    for (int p = 0; p < paths; p++) {
        if (at + 5 > len) return peer_refuse(15, at, place);
        uint64_t weight = peer_be32(s + at);
        int count = s[at + 4];
        if (count < 1 || count > 64) return peer_refuse(16, at, place);
        if (at + 5 + (size_t)count > len) return peer_refuse(15, at, place);
        total += weight;
        if (weight == 0 || total > 320000016) return peer_refuse(17, at, place);
        const uint8_t *vertices = s + at + 5;
        int last = vertices[0];
        if (last >= g.n || !(g.starts >> last & 1)) return peer_refuse(16, at, place);
        uint64_t set = 1ULL << last, cost = (uint64_t)g.opening;
        through[last] += weight;
        for (int i = 1; i < count; i++) {
            int v = vertices[i];
            if (v >= g.n || !(g.heads[last] >> v & 1)) return peer_refuse(16, at, place);
            int a = g.arc[last][v];
            through[v] += weight;
            arc_through[a] += weight;
            cost += g.cost[a];
            set |= 1ULL << v;
            last = v;
        }
        if (!(g.ends >> last & 1)) return peer_refuse(16, at, place);
        /* the lists ascend: at the first vertex that only one of them has, the new one goes on higher, or the old one has ended */
        if (p > 0) {
            uint64_t apart = set ^ before;
            if (apart == 0) return peer_refuse(18, at, place);
            int first = peer_low(apart);
            int ascends = set >> first & 1 ? before >> first == 0 : set >> first != 0;
            if (!ascends) return peer_refuse(18, at, place);
        }
        before = set;
        for (int r = 0; r < g.reads; r++) met |= (uint32_t)peer_holds(set, g.read[r]) << r;
        price += weight * cost;
        at += 5 + (size_t)count;
    }
    if (at != len) return peer_refuse(15, at, place);

    for (int v = 0; v < g.n; v++) {
        if (through[v] < g.demand[v]) return peer_refuse(19, (uint64_t)v, place);
    }
    for (int a = 0; a < g.arcs; a++) {
        if (arc_through[a] < g.arc_demand[a]) return peer_refuse(19, n + (uint64_t)a, place);
    }
    for (int r = 0; r < g.reads; r++) {
        if (!(met >> r & 1)) return peer_refuse(19, n + (uint64_t)g.arcs + (uint64_t)r, place);
    }
    if (stated != price) return peer_refuse(20, 0, place);
    for (int v = 0; v < g.n; v++) {
        if (in[v] < out[v] || (g.starts >> v & 1 && g.opening < in[v]) || (g.ends >> v & 1 && out[v] < 0)) {
            return peer_refuse(21, (uint64_t)v, place);
        }
    }
    for (int a = 0; a < g.arcs; a++) {
        if (g.cost[a] + out[g.tail[a]] < in[g.head[a]]) return peer_refuse(21, n + (uint64_t)a, place);
    }

    peer_prepare(&g);
    uint32_t rest[MAX_N], arc_rest[MAX_ARCS];
    int64_t read_cost[MAX_READS], bound = 0;
    peer_rests(&g, rest, arc_rest, read_cost);
    for (int v = 0; v < g.n; v++) bound += rest[v] * (in[v] - out[v]);
    for (int a = 0; a < g.arcs; a++) bound += arc_rest[a] * (g.cost[a] + out[g.tail[a]] - in[g.head[a]]);
    for (int r = 0; r < g.prepared_count; r++) {
        bound += read_cost[r] + in[peer_low(g.prepared[r])] - out[peer_high(g.prepared[r])];
    }
    if ((uint64_t)bound != price) return peer_refuse(22, 0, place);
    return peer_refuse(0, 0, place);
}
