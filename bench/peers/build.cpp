// The builder's work with LEMON's NetworkSimplex (Debian's liblemon-dev): read the form, prepare the reads, solve with lower bounds, take
// the flow apart into paths, write the answer form with the potentials as marks. Nothing of it is proved.
#include <lemon/network_simplex.h>
#include <lemon/smart_graph.h>

#include <algorithm>
#include <utility>
#include <vector>

#include "graph.h"
#include "peers.h"

namespace {

using lemon::SmartDigraph;

struct Edge {
    int from, to;
    int64_t lower, cost;
    uint64_t vertices;  // that it adds to a path
};

// The first item that asks for something and lies on no path from a start to an end; -1 where there is none.
int first_without_path(const peer_graph& g) {
    uint64_t from_start = g.starts, to_end = g.ends;
    for (int a = 0; a < g.arcs; a++) from_start |= (from_start >> g.tail[a] & 1) << g.head[a];
    for (int a = g.arcs - 1; a >= 0; a--) to_end |= (to_end >> g.head[a] & 1) << g.tail[a];
    uint64_t useful = from_start & to_end;
    for (int v = 0; v < g.n; v++) {
        if (g.demand[v] && !(useful >> v & 1)) return v;
    }
    for (int a = 0; a < g.arcs; a++) {
        if (g.arc_demand[a] && !(from_start >> g.tail[a] & to_end >> g.head[a] & 1)) return g.n + a;
    }
    for (int r = 0; r < g.reads; r++) {
        if (!(from_start >> peer_low(g.read[r]) & to_end >> peer_high(g.read[r]) & 1)) return g.n + g.arcs + r;
    }
    return -1;
}

// Whether the list of a comes before the list of b: they part at the first vertex that only one of them has.
bool before(uint64_t a, uint64_t b) {
    uint64_t apart = a ^ b;
    if (apart == 0) return false;
    int first = peer_low(apart);
    return a >> first & 1 ? b >> first != 0 : a >> first == 0;
}

void put32(uint8_t* p, uint32_t x) { p[0] = uint8_t(x >> 24), p[1] = uint8_t(x >> 16), p[2] = uint8_t(x >> 8), p[3] = uint8_t(x); }

}  // namespace

extern "C" size_t peer_build(const uint8_t* graph, size_t graph_len, uint8_t* out, size_t room, uint64_t* number, uint64_t* place) {
    peer_graph g;
    *number = peer_read(graph, graph_len, &g, place);
    if (*number) return 0;
    int item = first_without_path(g);
    if (item >= 0) {
        *number = peer_refuse(8, uint64_t(item), place);
        return 0;
    }
    if (room < 32543) {
        *number = peer_refuse(9, 0, place);
        return 0;
    }
    peer_prepare(&g);
    uint32_t rest[MAX_N], arc_rest[MAX_ARCS];
    int64_t read_cost[MAX_READS];
    peer_rests(&g, rest, arc_rest, read_cost);

    // A circulation through node 0, "outside": vertex v goes from node 1 + 2 v to node 2 + 2 v.
    Edge edges[3 * MAX_N + MAX_ARCS + MAX_READS];
    int count = 0;
    for (int v = 0; v < g.n; v++) {
        if (g.starts >> v & 1) edges[count++] = {0, 1 + 2 * v, 0, g.opening, 0};
        edges[count++] = {1 + 2 * v, 2 + 2 * v, rest[v], 0, 1ULL << v};
        if (g.ends >> v & 1) edges[count++] = {2 + 2 * v, 0, 0, 0, 0};
    }
    for (int a = 0; a < g.arcs; a++) edges[count++] = {2 + 2 * g.tail[a], 1 + 2 * g.head[a], arc_rest[a], g.cost[a], 0};
    for (int r = 0; r < g.prepared_count; r++) {
        uint64_t set = g.prepared[r];
        edges[count++] = {1 + 2 * peer_low(set), 2 + 2 * peer_high(set), 1, read_cost[r], set};
    }

    int nodes = 1 + 2 * g.n;
    SmartDigraph network;
    network.reserveNode(nodes);
    network.reserveArc(count);
    for (int v = 0; v < nodes; v++) network.addNode();
    for (int e = 0; e < count; e++) network.addArc(network.nodeFromId(edges[e].from), network.nodeFromId(edges[e].to));
    SmartDigraph::ArcMap<int64_t> lower(network), cost(network);
    for (int e = 0; e < count; e++) {
        lower[network.arcFromId(e)] = edges[e].lower;
        cost[network.arcFromId(e)] = edges[e].cost;
    }
    lemon::NetworkSimplex<SmartDigraph, int64_t, int64_t> simplex(network);
    simplex.lowerMap(lower).costMap(cost).run();

    // Take the flow apart: from outside along edges that still carry something, back to outside.
    int64_t flow[3 * MAX_N + MAX_ARCS + MAX_READS];
    int leaving[2 * MAX_N + 2] = {0}, by_node[3 * MAX_N + MAX_ARCS + MAX_READS];
    for (int e = 0; e < count; e++) flow[e] = simplex.flow(network.arcFromId(e)), leaving[edges[e].from + 1]++;
    for (int v = 0; v < nodes; v++) leaving[v + 1] += leaving[v];
    int next[2 * MAX_N + 1], fill[2 * MAX_N + 1];
    for (int v = 0; v < nodes; v++) next[v] = fill[v] = leaving[v];
    for (int e = 0; e < count; e++) by_node[fill[edges[e].from]++] = e;
    std::pair<uint64_t, int64_t> paths[3 * MAX_N + MAX_ARCS + MAX_READS];
    int path_count = 0;
    for (;;) {
        int way[2 * MAX_N + 1], length = 0, node = 0;
        int64_t amount = INT64_MAX;
        uint64_t set = 0;
        do {
            while (next[node] < leaving[node + 1] && flow[by_node[next[node]]] == 0) next[node]++;
            if (next[node] == leaving[node + 1]) break;
            int e = by_node[next[node]];
            way[length++] = e;
            amount = std::min(amount, flow[e]);
            set |= edges[e].vertices;
            node = edges[e].to;
        } while (node != 0);
        if (length == 0) break;
        for (int i = 0; i < length; i++) flow[way[i]] -= amount;
        paths[path_count++] = {set, amount};
    }
    std::sort(paths, paths + path_count, [](const auto& a, const auto& b) { return before(a.first, b.first); });
    int distinct = 0;
    for (int p = 0; p < path_count; p++) {
        if (distinct > 0 && paths[distinct - 1].first == paths[p].first) {
            paths[distinct - 1].second += paths[p].second;
        } else {
            paths[distinct++] = paths[p];
        }
    }

    // A vertex on no path from a start to an end may have a potential beyond the range of marks; cutting all of them down to the range
    // keeps every slack at 0 or above, and changes no mark that the bound counts.
    uint8_t* at = out + 15;
    int64_t outside = simplex.potential(network.nodeFromId(0));
    for (int v = 1; v < nodes; v++, at += 4) {
        int64_t mark = simplex.potential(network.nodeFromId(v)) - outside;
        put32(at, uint32_t(int32_t(std::clamp<int64_t>(mark, -2000000000, 2000000000))));
    }
    for (int p = 0; p < distinct; p++) {
        put32(at, uint32_t(paths[p].second));
        uint8_t* vertex = at + 5;
        for (uint64_t set = paths[p].first; set; set &= set - 1) *vertex++ = uint8_t(peer_low(set));
        at[4] = uint8_t(vertex - (at + 5));
        at = vertex;
    }
    uint64_t price = uint64_t(simplex.totalCost());
    size_t length = size_t(at - out);
    put32(out, uint32_t(length));
    out[4] = 1, out[5] = uint8_t(distinct >> 8), out[6] = uint8_t(distinct);
    put32(out + 7, uint32_t(price >> 32));
    put32(out + 11, uint32_t(price));
    *number = peer_refuse(0, 0, place);
    return length;
}
