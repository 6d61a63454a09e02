"""Rests, slacks and the bound, from the scope document alone.

A graph is anything with the fields opening, vertices (flags, demand), arcs (tail, head, cost, demand) and reads;
marks are a list of (in-mark, out-mark), one for each vertex.
"""

from prepare import holds, prepare


def rests(graph):
    """The rest of each vertex and of each arc: the demand less the number of prepared reads through it, and 0 if negative."""
    prepared = prepare(graph.reads)
    of_vertices = [max(0, demand - sum(1 for r in prepared if v in r)) for v, (_, demand) in enumerate(graph.vertices)]
    of_arcs = [max(0, demand - sum(1 for r in prepared if holds(r, (tail, head)))) for tail, head, _, demand in graph.arcs]
    return of_vertices, of_arcs


def vertex_slacks(graph, marks, v):
    flags = graph.vertices[v][0]
    in_mark, out_mark = marks[v]
    slacks = [in_mark - out_mark]
    if flags in (1, 3):
        slacks.append(graph.opening - in_mark)
    if flags in (2, 3):
        slacks.append(out_mark)
    return slacks


def arc_slack(graph, marks, arc):
    tail, head, cost, _ = arc
    return cost + marks[tail][1] - marks[head][0]


def first_slack_below_0(graph, marks):
    """The first item, vertices before arcs, with a slack below 0; None where there is none."""
    for v in range(len(graph.vertices)):
        if min(vertex_slacks(graph, marks, v)) < 0:
            return v
    for a, arc in enumerate(graph.arcs):
        if arc_slack(graph, marks, arc) < 0:
            return len(graph.vertices) + a
    return None


def bound(graph, marks):
    vertex_rests, arc_rests = rests(graph)
    total = 0
    for v, rest in enumerate(vertex_rests):
        total += rest * (marks[v][0] - marks[v][1])
    for arc, rest in zip(graph.arcs, arc_rests):
        total += rest * arc_slack(graph, marks, arc)
    cost_of = {(tail, head): cost for tail, head, cost, _ in graph.arcs}
    for read in prepare(graph.reads):
        cost = sum(cost_of[pair] for pair in zip(read, read[1:]))
        total += cost + marks[read[0]][0] - marks[read[-1]][1]
    return total
