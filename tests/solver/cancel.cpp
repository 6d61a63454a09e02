// Lowest-cost circulations with lower bounds, by cancelling negative cycles. Written on its own, for comparison with the builder.
//
// Standard input, any number of problems: NODES EDGES, then for each edge FROM TO LOWER COST (all costs at least 0, no upper bounds;
// every edge lies on a cycle through node 0, and the graph without node 0 has no cycle). For each problem a line: COST, the flow of
// each edge, a potential for each node (0 at node 0). The potentials p prove the cost lowest: cost + p(from) - p(to) is at least 0
// on each edge, and 0 on each edge whose flow is above its lower bound.
#include <cstdint>
#include <cstdio>
#include <cstdlib>
#include <vector>

struct Edge {
    int from, to;
    int64_t lower, cost, flow;
};

static std::vector<Edge> edges;
static int nodes;

// Adds an amount on some cycle through node 0 and the edge: each edge's amount is sent by itself, along the first way that is found.
static void send(int through, int64_t amount) {
    // ways from node 0 to each node, and from each node back to 0, by edges; -1 where not found yet
    std::vector<int> in(nodes, -1), out(nodes, -1);
    bool more = true;
    while (more) {
        more = false;
        for (int e = 0; e < (int)edges.size(); e++) {
            const Edge& edge = edges[e];
            if (edge.to != 0 && in[edge.to] < 0 && (edge.from == 0 || in[edge.from] >= 0)) in[edge.to] = e, more = true;
            if (edge.from != 0 && out[edge.from] < 0 && (edge.to == 0 || out[edge.to] >= 0)) out[edge.from] = e, more = true;
        }
    }
    edges[through].flow += amount;
    for (int v = edges[through].from; v != 0; v = edges[in[v]].from) {
        if (in[v] < 0) std::exit(2);
        edges[in[v]].flow += amount;
    }
    for (int v = edges[through].to; v != 0; v = edges[out[v]].to) {
        if (out[v] < 0) std::exit(2);
        edges[out[v]].flow += amount;
    }
}

// Bellman and Ford's distances in the network of what can still change: an edge forward without limit, and backward down to its lower
// bound. Answers whether a cycle of negative cost was found, and cancels it.
static std::vector<int64_t> distance;

static bool cancel_one() {
    std::vector<int> parent(nodes, -1);  // edge 2e is e forward, 2e + 1 is e backward
    distance.assign(nodes, 0);
    auto tail = [](int p) { return p % 2 == 0 ? edges[p / 2].from : edges[p / 2].to; };
    bool changed = true;
    for (int round = 0; changed; round++) {
        changed = false;
        for (int e = 0; e < (int)edges.size(); e++) {
            const Edge& edge = edges[e];
            if (distance[edge.from] + edge.cost < distance[edge.to]) {
                distance[edge.to] = distance[edge.from] + edge.cost, parent[edge.to] = 2 * e, changed = true;
            }
            if (edge.flow > edge.lower && distance[edge.to] - edge.cost < distance[edge.from]) {
                distance[edge.from] = distance[edge.to] - edge.cost, parent[edge.from] = 2 * e + 1, changed = true;
            }
        }
        // A cycle among the parents has negative cost.
        std::vector<int> seen(nodes, -1);
        for (int start = 0; start < nodes; start++) {
            int v = start;
            while (seen[v] < 0 && parent[v] >= 0) seen[v] = start, v = tail(parent[v]);
            if (seen[v] == start && parent[v] >= 0) {
                int64_t most = INT64_MAX;
                int u = v;
                do {
                    int p = parent[u];
                    if (p % 2 == 1 && edges[p / 2].flow - edges[p / 2].lower < most) most = edges[p / 2].flow - edges[p / 2].lower;
                    u = tail(p);
                } while (u != v);
                do {
                    int p = parent[u];
                    edges[p / 2].flow += p % 2 == 0 ? most : -most;
                    u = tail(p);
                } while (u != v);
                return true;
            }
        }
        if (round > nodes) std::exit(3);
    }
    return false;
}

int main() {
    int count;
    while (std::scanf("%d %d", &nodes, &count) == 2) {
        edges.resize(count);
        for (Edge& e : edges) {
            long long lower, cost;
            if (std::scanf("%d %d %lld %lld", &e.from, &e.to, &lower, &cost) != 4) return 1;
            e.lower = lower, e.cost = cost, e.flow = 0;
        }
        for (int e = 0; e < count; e++) {
            if (edges[e].lower > 0) send(e, edges[e].lower);
        }
        while (cancel_one()) {
        }
        int64_t cost = 0;
        for (const Edge& e : edges) cost += e.flow * e.cost;
        std::printf("%lld", (long long)cost);
        for (const Edge& e : edges) std::printf(" %lld", (long long)e.flow);
        for (int v = 0; v < nodes; v++) std::printf(" %lld", (long long)(distance[v] - distance[0]));
        std::printf("\n");
    }
    return 0;
}
