"""Seeded makers of graphs for tests and trials. Each family is a function of a random.Random; the same seed gives the same graphs.

    python3 tests/reference/generate.py FAMILY SEED COUNT    writes COUNT graph forms as records: length in four bytes, then the form

Families: small, small_reads, splicing, dense, wide_demands, limits, hard_reads; `every_small` and `genes` (tests/data) are fixed lists, from
which COUNT takes the first ones.
"""

import itertools
import os
import random
import sys

from exists import useful_vertices
from forms import MAX_ARCS, MAX_COST, MAX_DEMAND, MAX_OPENING, MAX_READS, MAX_VERTICES, Graph, decode_graph, encode_graph, number_at

FEWEST_COPIES_FIRST = 1_000_000  # the opening price of orders that want fewest copies first


# Reads.


def walk(rng, graph, length):
    """Vertices along arcs from anywhere, at most so many; one vertex alone where there is no arc."""
    heads = {}
    for tail, head, _, _ in graph.arcs:
        heads.setdefault(tail, []).append(head)
    if not heads:
        return (0,)
    at = rng.choice(sorted(heads))
    vertices = [at]
    while at in heads and len(vertices) < length:
        at = rng.choice(heads[at])
        vertices.append(at)
    return tuple(vertices)


def some_reads(rng, graph, count):
    """Reads that overlap, contain one another and repeat: windows of a few long walks."""
    if not graph.arcs:
        return []
    walks = [walk(rng, graph, rng.randrange(2, 40)) for _ in range(rng.randrange(1, 4))]
    reads = []
    while len(reads) < count:
        if reads and rng.random() < 0.15:  # a double, or a part of an earlier one
            read = rng.choice(reads)
            if rng.random() < 0.5:
                start = rng.randrange(len(read) - 1)
                read = read[start:rng.randrange(start + 2, len(read) + 1)]
        else:
            long = rng.choice(walks) if rng.random() < 0.8 else walk(rng, graph, 16)
            start = rng.randrange(len(long) - 1)
            read = long[start:start + rng.randrange(2, 17)]
        reads.append(read)
    return reads


def hard_reads(rng):
    """Reads laid over one walk at small steps, among others that overlap with them by less: the order of joining matters."""
    graph = splicing(rng, rng.randrange(5, 20))._replace(reads=[])
    long = max((walk(rng, graph, 40) for _ in range(6)), key=len)
    reads = []
    for _ in range(rng.randrange(2, MAX_READS + 1)):
        other = long if rng.random() < 0.6 else walk(rng, graph, 16)
        if len(other) >= 2:
            start = rng.randrange(len(other) - 1)
            reads.append(other[start:start + rng.randrange(2, 6)])
    return coverable(graph._replace(reads=reads))


# Making a graph coverable.


def coverable(graph):
    """The graph without what no path from a start to an end can meet."""
    from_start, to_end = useful_vertices(graph)
    vertices = [(flags, demand if from_start[v] and to_end[v] else 0) for v, (flags, demand) in enumerate(graph.vertices)]
    arcs = [(tail, head, cost, demand if from_start[tail] and to_end[head] else 0) for tail, head, cost, demand in graph.arcs]
    reads = [read for read in graph.reads if from_start[read[0]] and to_end[read[-1]]]
    return Graph(graph.opening, vertices, arcs, reads)


# Families.


def small(rng):
    """At most seven vertices, few demands: an exhaustive search can solve it. About one in ten has no cover."""
    n = rng.choice((1, 2, 3, 4, 4, 5, 5, 5, 6, 6, 7))
    density = rng.choice((0.3, 0.6, 0.9))
    top = rng.choice((1, 1, 2, 3))
    vertices = []
    for v in range(n):
        start = v == 0 or rng.random() < 0.25
        end = v == n - 1 or rng.random() < 0.25
        if rng.random() < 0.1:
            start, end = False, False
        vertices.append((start + 2 * end, rng.randrange(top + 1)))
    costs = rng.choice(((0,), (0, 1), range(10)))
    arcs = [(tail, head, rng.choice(costs), rng.choice((0, 0, 0, 1, top)))
            for tail in range(n) for head in range(tail + 1, n) if rng.random() < density]
    graph = Graph(rng.choice((0, 0, 1, 3, 10, FEWEST_COPIES_FIRST)), vertices, arcs, [])
    graph = graph._replace(reads=some_reads(rng, graph, rng.choice((0, 0, 1, 2, 3, 4, 5))))
    while asked_in_ways(graph) > 20_000:  # so that an exhaustive search stays quick, ask for less
        a = rng.randrange(len(arcs))
        graph.arcs[a] = graph.arcs[a][:3] + (0,)
        v = rng.randrange(n)
        graph.vertices[v] = (graph.vertices[v][0], graph.vertices[v][1] // 2)
    return graph if rng.random() < 0.2 else coverable(graph)


def small_reads(rng):
    """Small, with few demands and many short reads that overlap, many starts and ends: which reads are joined matters."""
    n = rng.choice((5, 6, 7))
    pairs = {(v, v + 1) for v in range(n - 1)} | {(v, v + 2) for v in range(n - 2) if rng.random() < 0.5}
    arcs = [(tail, head, rng.randrange(3), 0) for tail, head in sorted(pairs)]
    vertices = [((rng.random() < 0.5 or v == 0) + 2 * (rng.random() < 0.5 or v == n - 1), rng.choice((0, 0, 1))) for v in range(n)]
    graph = Graph(rng.choice((1, 10)), vertices, arcs, [])
    return coverable(graph._replace(reads=[walk(rng, graph, rng.choice((2, 3, 3, 4))) for _ in range(rng.choice((3, 4, 5, 6)))]))


def asked_in_ways(graph):
    """How many vectors of what is still missing there can be on the way to a cover."""
    ways = 2 ** len(graph.reads)
    for demand in [demand for _, demand in graph.vertices] + [arc[3] for arc in graph.arcs]:
        ways *= demand + 1
    return ways


def every_small():
    """Every graph of at most three vertices with demands 0 or 1 on vertices, and up to two reads; costs and opening are fixed."""
    for n in (1, 2, 3):
        every_pair = list(itertools.combinations(range(n), 2))
        for chosen in itertools.product((False, True), repeat=len(every_pair)):
            arcs = [(tail, head, 1 + 2 * tail + head, 0) for (tail, head), taken in zip(every_pair, chosen) if taken]
            possible = [(tail, head) for tail, head, _, _ in arcs] + ([(0, 1, 2)] if {(0, 1), (1, 2)} <= {arc[:2] for arc in arcs} else [])
            read_sets = [[]] + [[read] for read in possible] + [list(pair) for pair in itertools.combinations(possible, 2)]
            for flags in itertools.product(range(4), repeat=n):
                for demands in itertools.product((0, 1), repeat=n):
                    for reads in read_sets:
                        yield Graph(10, list(zip(flags, demands)), arcs, reads)


def splicing(rng, n=None):
    """Like a gene: a chain of exons with skipped ones, other starts and ends, demands like a coverage, reads along transcripts."""
    n = n or rng.choice((6, 8, 10, 12, 17, 24, 40, 64))
    pairs = {(v, v + 1) for v in range(n - 1) if rng.random() < 0.95}
    for _ in range(rng.randrange(n // 2 + 2)):
        tail = rng.randrange(n)
        head = tail + rng.choice((2, 2, 2, 3, 4, 7))
        if head < n:
            pairs.add((tail, head))
    vertices = []
    level = rng.choice((0, 1, 1, 20, 1000))
    for v in range(n):
        start = v == 0 or rng.random() < 0.08
        end = v == n - 1 or rng.random() < 0.08
        vertices.append((start + 2 * end, min(MAX_DEMAND, int(rng.random() * 2 * level) + (level == 1))))
    arcs = [(tail, head, rng.choice((0, 1, rng.randrange(1000))), int(rng.random() * 2 * level) if rng.random() < 0.5 else 0)
            for tail, head in sorted(pairs)][:MAX_ARCS]
    graph = Graph(rng.choice((0, 1000, FEWEST_COPIES_FIRST)), vertices, arcs, [])
    return coverable(graph._replace(reads=some_reads(rng, graph, rng.choice((0, 2, 4, 8, 16)))))


def dense(rng, n=None):
    """Many arcs for its vertices: all pairs up to 22 vertices, 256 random ones beyond."""
    n = n or rng.choice((4, 8, 16, 22, 23, 32, 48, 64))
    every_pair = list(itertools.combinations(range(n), 2))
    chosen = sorted(rng.sample(every_pair, min(MAX_ARCS, len(every_pair))))
    vertices = [((rng.random() < 0.2 or v == 0) + 2 * (rng.random() < 0.2 or v == n - 1), rng.randrange(4)) for v in range(n)]
    arcs = [(tail, head, rng.randrange(100), rng.choice((0, 0, 0, 1, 5))) for tail, head in chosen]
    graph = Graph(rng.choice((0, 10, 100, FEWEST_COPIES_FIRST)), vertices, arcs, [])
    return coverable(graph._replace(reads=some_reads(rng, graph, rng.randrange(MAX_READS + 1))))


def wide_demands(rng):
    """Demands and prices from the whole of their ranges, the ends most of all."""
    graph = rng.choice((splicing, dense))(rng)

    def pick(top):
        return rng.choice((0, 1, top - 1, top, rng.randrange(top + 1)))

    vertices = [(flags, pick(MAX_DEMAND)) for flags, _ in graph.vertices]
    arcs = [(tail, head, pick(MAX_COST), pick(MAX_DEMAND)) for tail, head, _, _ in graph.arcs]
    return coverable(Graph(pick(MAX_OPENING), vertices, arcs, graph.reads))


def limits(rng):
    """64 vertices, 256 arcs, 16 overlapping reads of 16 vertices, top demands; opening price 0, 1,000,000 or 1,000,000,000."""
    n = MAX_VERTICES
    chosen = {(v, v + 1) for v in range(n - 1)}
    every_pair = list(itertools.combinations(range(n), 2))
    near = [pair for pair in every_pair if pair[1] - pair[0] <= 8]
    source = rng.choice((every_pair, near))
    while len(chosen) < MAX_ARCS:
        chosen.add(rng.choice(source))
    demands = rng.choice((lambda: MAX_DEMAND, lambda: rng.randrange(MAX_DEMAND + 1), lambda: 1, lambda: rng.choice((0, 1, MAX_DEMAND))))
    costs = rng.choice((lambda: 0, lambda: MAX_COST, lambda: rng.randrange(MAX_COST + 1), lambda: rng.choice((0, 1, MAX_COST))))
    ends = rng.choice((0, 0.1, 1))
    vertices = [((v == 0 or rng.random() < ends) + 2 * (v == n - 1 or rng.random() < ends), demands()) for v in range(n)]
    arcs = [(tail, head, costs(), demands()) for tail, head in sorted(chosen)]
    graph = Graph(rng.choice((0, FEWEST_COPIES_FIRST, MAX_OPENING)), vertices, arcs, [])
    reads = []
    while len(reads) < MAX_READS:
        base = walk(rng, graph, 64) if rng.random() < 0.5 else tuple(range(n))
        if len(base) >= 16:
            start = rng.randrange(len(base) - 15)
            reads.append(base[start:start + 16])
    return graph._replace(reads=reads)


def genes():
    """The splicing graphs of real genes in tests/data."""
    with open(os.path.join(os.path.dirname(os.path.abspath(__file__)), "..", "data", "genes.forms"), "rb") as f:
        data = f.read()
    while data:
        length = number_at(data, 0, 4)
        yield decode_graph(data[:length])
        data = data[length:]


FAMILIES = {f.__name__: f for f in (small, small_reads, splicing, dense, wide_demands, limits, hard_reads)}
LISTS = {f.__name__: f for f in (every_small, genes)}


def make(family, seed, count):
    """So many graphs of a family; graph k depends on family, seed and k alone."""
    if family in LISTS:
        return list(itertools.islice(LISTS[family](), count))
    return [FAMILIES[family](random.Random(f"{family} {seed} {k}")) for k in range(count)]


if __name__ == "__main__":
    if len(sys.argv) != 4 or sys.argv[1] not in (*FAMILIES, *LISTS):
        sys.exit(__doc__)
    for graph in make(sys.argv[1], int(sys.argv[2]), int(sys.argv[3])):
        form = encode_graph(graph)
        sys.stdout.buffer.write(len(form).to_bytes(4, "big") + form)
