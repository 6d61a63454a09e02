"""Lowest-price covers of graphs of any size, by cancelling negative cycles (cancel.cpp) on the network of the prepared reads.

    solve(graphs) -> for each graph an Answer (price, marks, paths) of lowest price, or None where there is no cover

The network is a circulation through one node for "outside": from it into each start (opening price), through each vertex (its rest
as lower bound), along each arc (its rest as lower bound), from each end back; and for each prepared read an edge from before its
first vertex to behind its last with lower bound 1 and the cost of its arcs. The potentials are the marks.
"""

import os
import subprocess
import sys

HERE = os.path.dirname(os.path.abspath(__file__))
for folder in ("..", os.path.join("..", "reference")):
    sys.path.insert(0, os.path.join(HERE, folder))

from bound import rests
from exists import first_without_path
from forms import Answer, is_end, is_start
from prepare import prepare
from tally import must

PROGRAM = os.path.join(HERE, "built", "cancel")


def compiled():
    source = os.path.join(HERE, "cancel.cpp")
    if not os.path.exists(PROGRAM) or os.path.getmtime(PROGRAM) < os.path.getmtime(source):
        os.makedirs(os.path.dirname(PROGRAM), exist_ok=True)
        subprocess.run(["g++", "-O2", "-Wall", "-o", PROGRAM, source], check=True)
    return PROGRAM


def before(v):
    return 1 + 2 * v


def behind(v):
    return 2 + 2 * v


def network(graph):
    """Edges (from, to, lower bound, cost, the vertices that they add to a path)."""
    vertex_rests, arc_rests = rests(graph)
    cost_of = {(tail, head): cost for tail, head, cost, _ in graph.arcs}
    edges = []
    for v in range(len(graph.vertices)):
        if is_start(graph, v):
            edges.append((0, before(v), 0, graph.opening, ()))
        if is_end(graph, v):
            edges.append((behind(v), 0, 0, 0, ()))
        edges.append((before(v), behind(v), vertex_rests[v], 0, (v,)))
    for (tail, head, cost, _), rest in zip(graph.arcs, arc_rests):
        edges.append((behind(tail), before(head), rest, cost, ()))
    for read in prepare(graph.reads):
        edges.append((before(read[0]), behind(read[-1]), 1, sum(cost_of[p] for p in zip(read, read[1:])), read))
    return edges


def cycle_of(edges, spare):
    """A cycle through node 0 by edges with something to spare, as edge numbers; None where there is none."""
    leaving = {}
    for e, edge in enumerate(edges):
        if spare[e] > 0:
            leaving.setdefault(edge[0], []).append(e)
    dead = set()

    def search(node):
        for e in leaving.get(node, ()):
            to = edges[e][1]
            if to == 0:
                return [e]
            if to not in dead:
                rest = search(to)
                if rest is not None:
                    return [e] + rest
        dead.add(node)
        return None

    return search(0)


def answer_of(graph, edges, price, flow, potential):
    flow = list(flow)
    # Copies that meet nothing that is not met without them can only be free; without them the totals stay inside the form's limits.
    while True:
        spare = [f - edge[2] for f, edge in zip(flow, edges)]
        cycle = cycle_of(edges, spare)
        if cycle is None:
            break
        amount = min(spare[e] for e in cycle)
        must(sum(edges[e][3] for e in cycle) == 0, f"copies that nothing asks for cost something: {graph}")
        for e in cycle:
            flow[e] -= amount
    weights = {}
    while True:
        cycle = cycle_of(edges, flow)
        if cycle is None:
            break
        amount = min(flow[e] for e in cycle)
        path = tuple(v for e in cycle for v in edges[e][4])
        weights[path] = weights.get(path, 0) + amount
        for e in cycle:
            flow[e] -= amount
    must(not any(flow), f"the flow does not go round: {graph}")
    marks = [(potential[before(v)], potential[behind(v)]) for v in range(len(graph.vertices))]
    return Answer(price, marks, [(weight, path) for path, weight in sorted(weights.items())])


def solve(graphs):
    todo = [(k, network(graph)) for k, graph in enumerate(graphs) if first_without_path(graph) is None]
    problems = []
    for k, edges in todo:
        # An edge that no path from a start to an end uses carries nothing; it stays in the network for the marks.
        problems.append(f"{1 + 2 * len(graphs[k].vertices)} {len(edges)}")
        problems += [f"{a} {b} {lower} {cost}" for a, b, lower, cost, _ in edges]
    done = subprocess.run([compiled()], input="\n".join(problems), capture_output=True, text=True, check=True)
    lines = done.stdout.splitlines()
    must(len(lines) == len(todo), f"{len(lines)} answers to {len(todo)} problems")
    answers = [None] * len(graphs)
    for (k, edges), line in zip(todo, lines):
        numbers = list(map(int, line.split()))
        answers[k] = answer_of(graphs[k], edges, numbers[0], numbers[1:1 + len(edges)], numbers[1 + len(edges):])
    return answers
