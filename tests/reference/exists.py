"""When the builder refuses, from the scope document alone: number 8 with its place, then 9.

    refusal_of_builder(graph form, bytes lent) -> (number, place)
"""

from forms import LONGEST_ANSWER, Refused, decode_graph, is_end, is_start, pairs


def useful_vertices(graph):
    """The vertices that lie on some path from a start to an end."""
    n = len(graph.vertices)
    from_start = [is_start(graph, v) for v in range(n)]
    for tail, head, _, _ in graph.arcs:  # ascending by tail, so each tail is settled before its arcs
        if from_start[tail]:
            from_start[head] = True
    to_end = [is_end(graph, v) for v in range(n)]
    for tail, head, _, _ in reversed(graph.arcs):
        if to_end[head]:
            to_end[tail] = True
    return from_start, to_end


def first_without_path(graph):
    """The first item that asks for something and lies on no start-to-end path; None where a cover exists."""
    n = len(graph.vertices)
    from_start, to_end = useful_vertices(graph)
    for v, (_, demand) in enumerate(graph.vertices):
        if demand > 0 and not (from_start[v] and to_end[v]):
            return v
    for a, (tail, head, _, demand) in enumerate(graph.arcs):
        if demand > 0 and not (from_start[tail] and to_end[head]):
            return n + a
    for r, read in enumerate(graph.reads):
        if not (from_start[read[0]] and to_end[read[-1]]):
            return n + len(graph.arcs) + r
    return None


def refusal_of_builder(graph_bytes, lent):
    try:
        graph = decode_graph(graph_bytes)
    except Refused as r:
        return r.number, r.place
    item = first_without_path(graph)
    if item is not None:
        return 8, item
    if lent < LONGEST_ANSWER:
        return 9, 0
    return 0, 0
