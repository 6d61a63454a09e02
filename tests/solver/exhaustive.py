"""Lowest prices of small graphs by exhaustive search, from the scope document alone. It works on the ORIGINAL reads.

What is still asked for is a vector: for each vertex and arc how many copies are missing, for each read 1 until some path holds it.
If the first entry that is not 0 is entry i, every cover of what is asked for has a copy of a path through i (for a read: a path
that holds it). Take that copy away: what is left covers what is asked for less what the copy gave. So the lowest price of a vector
is the least, over the paths through i, of that path's price plus the lowest price of the vector less the path; and 0 where nothing
is asked for. No bound on weights is needed, since each step lowers the vector: this looks at every way to choose copies.
"""

import os
import sys

sys.path.insert(0, os.path.join(os.path.dirname(os.path.abspath(__file__)), "..", "reference"))

from forms import is_end, is_start, pairs, price_of_copy
from prepare import holds


def every_path(graph):
    """All paths from a start to an end."""
    heads = {}
    for tail, head, _, _ in graph.arcs:
        heads.setdefault(tail, []).append(head)
    found = []

    def extend(path):
        if is_end(graph, path[-1]):
            found.append(path)
        for head in heads.get(path[-1], ()):
            extend(path + (head,))

    for v in range(len(graph.vertices)):
        if is_start(graph, v):
            extend((v,))
    return found


def lowest_price(graph):
    """The lowest price of a cover, and the weighted paths of one that has it; (None, None) where there is no cover."""
    asked = [demand for _, demand in graph.vertices] + [demand for _, _, _, demand in graph.arcs] + [1] * len(graph.reads)
    n, arc_count = len(graph.vertices), len(graph.arcs)
    arc_number = {(tail, head): n + a for a, (tail, head, _, _) in enumerate(graph.arcs)}
    paths = []
    for path in every_path(graph):
        items = set(path) | {arc_number[pair] for pair in pairs(path)}
        items |= {n + arc_count + r for r, read in enumerate(graph.reads) if holds(path, read)}
        paths.append((price_of_copy(graph, path), path, items))
    known = {}

    def solve(missing):
        if missing in known:
            return known[missing]
        first = next((i for i, count in enumerate(missing) if count > 0), None)
        if first is None:
            return 0, None
        best = (None, None)
        for price, path, items in paths:
            if first in items:
                rest = tuple(max(0, count - 1) if i in items else count for i, count in enumerate(missing))
                rest_price, _ = solve(rest)
                if rest_price is not None and (best[0] is None or price + rest_price < best[0]):
                    best = (price + rest_price, (path, rest))
        known[missing] = best
        return best

    price, step = solve(tuple(asked))
    if price is None:
        return None, None
    weights = {}
    while step is not None:
        path, rest = step
        weights[path] = weights.get(path, 0) + 1
        step = solve(rest)[1]
    return price, sorted((path, weight) for path, weight in weights.items())
