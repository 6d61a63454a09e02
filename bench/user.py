"""What a user would script instead of the builder: the same network for networkx's network_simplex, and its flow taken apart into paths.

    python3 bench/user.py SET FORMS    times the first FORMS forms of a set in this process; prints: user SET FORMS NANOSECONDS

SET is a file of graph forms, each behind its length in four bytes; beside it SET.answers has the library's answers, whose prices must be equal.
A script like this certifies nothing: it has no marks.
"""

import os
import sys
import time

HERE = os.path.dirname(os.path.abspath(__file__))
sys.path.insert(0, os.path.join(HERE, "..", "tests", "reference"))

import networkx

from bound import rests
from forms import decode_graph, is_end, is_start, number_at
from prepare import prepare

OUTSIDE = "outside"
MOST = 320_000_016  # no cover of lowest price needs more on an edge; without a capacity network_simplex may call a free cycle unbounded


def records(name):
    with open(name, "rb") as f:
        data = f.read()
    while data:
        length = number_at(data, 0, 4)
        yield data[4:4 + length]
        data = data[4 + length:]


def add_edge(net, tail, head, at_least, cost, vertices):
    """An edge that carries at least so much: what it must carry goes into the demands of its ends."""
    net.add_node(tail), net.add_node(head)
    net.nodes[tail]["demand"] = net.nodes[tail].get("demand", 0) + at_least
    net.nodes[head]["demand"] = net.nodes[head].get("demand", 0) - at_least
    net.add_edge(tail, head, weight=cost, at_least=at_least, capacity=MOST, vertices=vertices)


def cover(form):
    """Price and weighted paths of a lowest-price cover."""
    graph = decode_graph(form)
    of_vertices, of_arcs = rests(graph)
    cost_of = {(tail, head): cost for tail, head, cost, _ in graph.arcs}
    net = networkx.MultiDiGraph()
    for v in range(len(graph.vertices)):
        if is_start(graph, v):
            add_edge(net, OUTSIDE, ("in", v), 0, graph.opening, ())
        if is_end(graph, v):
            add_edge(net, ("out", v), OUTSIDE, 0, 0, ())
        add_edge(net, ("in", v), ("out", v), of_vertices[v], 0, (v,))
    for (tail, head, cost, _), rest in zip(graph.arcs, of_arcs):
        add_edge(net, ("out", tail), ("in", head), rest, cost, ())
    for read in prepare(graph.reads):
        add_edge(net, ("in", read[0]), ("out", read[-1]), 1, sum(cost_of[pair] for pair in zip(read, read[1:])), read)
    _, flow = networkx.network_simplex(net)
    price, leaving = 0, {}
    for tail, head, key, data in net.edges(keys=True, data=True):
        carried = flow[tail][head][key] + data["at_least"]
        price += carried * data["weight"]
        if carried:
            leaving.setdefault(tail, []).append([head, carried, data["vertices"]])
    paths = {}
    while leaving.get(OUTSIDE):
        route, at = [], OUTSIDE
        while not route or at != OUTSIDE:
            edge = leaving[at][-1]
            route.append((at, edge))
            at = edge[0]
        amount = min(edge[1] for _, edge in route)
        path = tuple(v for _, edge in route for v in edge[2])
        paths[path] = paths.get(path, 0) + amount
        for tail, edge in route:
            edge[1] -= amount
            if edge[1] == 0:
                leaving[tail].remove(edge)
    return price, sorted(paths.items())


if __name__ == "__main__":
    name, count = sys.argv[1], int(sys.argv[2])
    forms = list(records(name))[:count]
    answers = list(records(name + ".answers"))[:count]
    total = 0
    for form, answer in zip(forms, answers):
        start = time.perf_counter_ns()
        price, paths = cover(form)
        total += time.perf_counter_ns() - start
        assert price == number_at(answer, 7, 8), f"networkx has another price: {price}, {number_at(answer, 7, 8)}"
    print(f"user {name} {len(forms)} {total // len(forms)}")
