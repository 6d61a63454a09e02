"""Writes the builder's vectors: crates/builder_vectors/stdin (records: length in four bytes, then a form's bytes) and
crates/builder_vectors/stdout (for each record a line NUMBER PLACE PRICE SOME CHECKED NUMBER PLACE WRITTEN, twice: once by the guess of the flow, and once
by the search that follows where a guess fails).

    python3 tests/vectors/make_builder_vectors.py            write both files
    python3 tests/vectors/make_builder_vectors.py --check    only compare the files with what would be written
    python3 tests/vectors/make_builder_vectors.py --list     print line number, answer and name of each vector

Number and place come from the reference, the price (0 on a refusal) from cycle cancelling in tests/solver, and for small graphs from the
exhaustive search over the original reads too. SOME is 1 where bytes are written, 0 on a refusal; CHECKED is what the reference's checker
gives of the second solver's answer, or of no bytes on a refusal. The last three are for an output that is one byte too short. Nothing here
comes from the builder.
"""

import itertools
import os
import random
import sys

ROOT = os.path.join(os.path.dirname(os.path.abspath(__file__)), "..", "..")
for folder in ("tests", "tests/reference", "tests/solver"):
    sys.path.insert(0, os.path.join(ROOT, folder))

import make_reader_vectors
import network
import stored
from cases import D, D_WITH_3, D_WITH_READ, L, NONE_ASKED, NO_END, ONE, X
from exhaustive import lowest_price
from exists import refusal_of_builder
from forms import LONGEST_ANSWER, LONGEST_GRAPH, MAX_COST, MAX_DEMAND, MAX_OPENING, Graph, check, decode_graph, encode_answer, encode_graph, read_graph
from generate import asked_in_ways, make
from make_reader_vectors import chain, with_length
from tally import must

SEED = 20240603
vectors = []
stated = {}  # what document 01 says of a vector, or what follows from it by hand: number and place, or the price


def add(name, graph, says=None):
    if says is not None:
        stated[len(vectors)] = says
    vectors.append((name, encode_graph(graph) if isinstance(graph, Graph) else bytes(graph)))


# The document's rows.
add("D", D, 34)
add("D with read 0 1 3", D_WITH_READ, 34)
add("D with demand 3 on arc 0-1", D_WITH_3, 66)
add("one vertex, flags 3, demand 1", ONE, 10)
add("one vertex, demand 0", NONE_ASKED, 0)
add("one vertex, flag 1, demand 1", NO_END, (8, 0))
add("L", L, 24)
add("X", X, 24)
add("D, arc from 1 to 1", D._replace(arcs=D.arcs[:2] + [(1, 1, 4, 0)] + D.arcs[3:]), (6, 53))
for count, says in ((1, (7, 273)), (2, None), (16, None), (17, (7, 273))):
    add(f"a read of {count} vertices", chain(18, [tuple(range(count))])._replace(vertices=[(3, 0)] * 18), says or 10)
add("D, demand 1,000,000", D._replace(vertices=[(1, 1_000_000)] + D.vertices[1:]), 16_000_002)
add("D, demand 1,000,001", D._replace(vertices=[(1, 1_000_001)] + D.vertices[1:]), (4, 13))
add("a 12-byte graph", with_length(encode_graph(D)[:12]), (1, 0))

# 1 to 7: one form for each number and place that the reader's vectors have.
seen = set()
for name, form in make_reader_vectors.vectors:
    if len(form) < 200 and read_graph(form) not in seen:
        seen.add(read_graph(form))
        add(f"reader's: {name}", form)

# 8. K: 0-1-2 leads from a start to an end. Nothing meets 3, no end is behind 4 and 5, no start is before 6 and 7. Any two items ask.
K = Graph(10, [(1, 0), (0, 0), (2, 0), (0, 0), (0, 0), (0, 0), (0, 0), (2, 0)],
          [(0, 1, 1, 0), (0, 4, 1, 0), (1, 2, 1, 0), (1, 5, 1, 0), (4, 5, 1, 0), (6, 7, 1, 0)], [])
K_READS = [(0, 1, 2), (0, 4, 5), (1, 5), (6, 7), (1, 2)]
K_ITEMS = len(K.vertices) + len(K.arcs) + len(K_READS)


def asking_of_k(items):
    """K with the reads that are among the items, and demands on the vertices and arcs among them."""
    n, reads_at = len(K.vertices), len(K.vertices) + len(K.arcs)
    vertices = [(flags, int(v in items)) for v, (flags, _) in enumerate(K.vertices)]
    arcs = [arc[:3] + (int(n + a in items),) for a, arc in enumerate(K.arcs)]
    return Graph(K.opening, vertices, arcs, [read for r, read in enumerate(K_READS) if reads_at + r in items])


for count in (0, 1, 2, K_ITEMS):
    for items in itertools.combinations(range(K_ITEMS), count):
        add(f"K, items {items} ask", asking_of_k(items))
for flags in itertools.product(range(4), repeat=2):
    for demands in itertools.product((0, 1), repeat=3):
        add(f"two vertices, flags {flags}, demands {demands}", Graph(10, list(zip(flags, demands)), [(0, 1, 3, demands[2])], []))
        add(f"two vertices, flags {flags}, demands {demands}, a read", Graph(10, list(zip(flags, demands)), [(0, 1, 3, demands[2])], [(0, 1)]))
# 7 before 8, and 5 before 8.
add("one vertex without an end, and a read of it", Graph(10, [(1, 1)], [], [(0,)]))
add("one vertex without an end, and a byte behind it", with_length(encode_graph(NO_END) + bytes(1)))

# The order of the reads, reads inside others, equal ones; a read is not met with others between; more reads through an item than it asks.
for order in itertools.permutations(L.reads):
    add(f"L, reads {order}", L._replace(reads=list(order)), 24)
    add(f"L, reads {order}, twice", L._replace(reads=list(order) * 2), 24)
for reads in itertools.combinations([(0, 1), (1, 2), (2, 3), (2, 4), (0, 1, 2), (1, 2, 3), (1, 2, 4), (0, 1, 2, 3)], 3):
    add(f"L, reads {reads}", L._replace(reads=list(reads)))
for reads in ([(0, 2)], [(0, 1, 2)], [(0, 1), (1, 2)], [(0, 2), (0, 1, 2)]):
    for demand in (0, 1, 2):
        graph = Graph(10, [(1, demand), (0, demand), (2, demand)], [(0, 1, 1, 0), (0, 2, 9, 0), (1, 2, 1, demand)], reads)
        add(f"a way around, demand {demand}, reads {reads}", graph)
for step in (1, 2, 3):
    for demand in (0, 1, 5):
        graph = chain(64, [tuple(range(step * k, step * k + 16)) for k in range(16)])
        line = graph._replace(vertices=[(1 if v == 0 else 2 if v == 63 else 0, demand) for v in range(64)])
        add(f"64 vertices in a line, demand {demand}, 16 reads at steps of {step}", line)

# Nothing asked of graphs that have no path, free copies, every vertex by itself.
for flags in range(4):
    for opening in (0, 10, MAX_OPENING):
        add(f"64 vertices, flags {flags}, nothing asked, opening {opening}", Graph(opening, [(flags, 0)] * 64, [], []))
        add(f"64 vertices, flags {flags}, all asked, opening {opening}", Graph(opening, [(flags, MAX_DEMAND)] * 64, [], []))

# The limits: 64 vertices, 256 arcs, 16 overlapping reads of 16 vertices, demands 1,000,000; opening price 0 and 1,000,000,000.
for k, graph in enumerate(make("limits", SEED, 8)):
    asked = Graph(0, [(flags, MAX_DEMAND) for flags, _ in graph.vertices], [arc[:3] + (MAX_DEMAND,) for arc in graph.arcs], graph.reads)
    must(len(encode_graph(asked)) == LONGEST_GRAPH, "the longest graph form is not as long as the limits allow")
    for opening in (0, MAX_OPENING):
        add(f"limits {k}, opening {opening}", asked._replace(opening=opening))
# The top of every range: the dearest cover has 256 times 1,000,000 copies of an arc each.
two_steps = sorted((tail, 32 + (tail + step) % 32, MAX_COST, MAX_DEMAND) for tail in range(32) for step in range(8))
add("256 arcs at the top of every range", Graph(MAX_OPENING, [(1 if v < 32 else 2, MAX_DEMAND) for v in range(64)], two_steps, []),
    256 * MAX_DEMAND * (MAX_OPENING + MAX_COST))
# 8 at the very last items: the last arc's head is no end, and the last read runs through it.
no_end = Graph(10, [(1, 1)] * 32 + [(2, 1)] * 31 + [(0, 0)], [arc[:3] + (0,) for arc in two_steps], [two_steps[0][:2]] * 15 + [two_steps[-1][:2]])
add("limits, only the last read lies on no path", no_end, (8, 64 + 256 + 15))
add("limits, the last arc and the last read lie on no path", no_end._replace(arcs=no_end.arcs[:-1] + [two_steps[-1]]), (8, 64 + 255))
add("limits, the last of each kind lies on no path", no_end._replace(vertices=no_end.vertices[:-1] + [(0, 1)]), (8, 63))

# Made graphs of every family.
COUNTS = {"small": 150, "small_reads": 150, "splicing": 60, "hard_reads": 80, "dense": 16, "wide_demands": 24, "limits": 10, "genes": 133}
for family, count in COUNTS.items():
    for k, graph in enumerate(make(family, SEED, count)):
        add(f"{family} {k}", graph)
rng = random.Random(SEED)
for graph in make("splicing", SEED + 1, 40):  # some flags gone, so that many have no cover
    vertices = [(flags & rng.choice((0, 1, 2, 3, 3)), demand) for flags, demand in graph.vertices]
    add("splicing, flags gone", graph._replace(vertices=vertices))


def solved():
    """For each vector what is printed of it."""
    refusals = [refusal_of_builder(form, LONGEST_ANSWER) for _, form in vectors]
    graphs = {k: decode_graph(form) for k, (_, form) in enumerate(vectors) if refusals[k] == (0, 0)}
    answers = dict(zip(graphs, network.solve(list(graphs.values()))))
    for k, (name, form) in enumerate(vectors):
        price, answer = 0, b""
        if k in answers:
            price, answer = answers[k].price, encode_answer(answers[k])
            small = len(graphs[k].vertices) <= 8 and asked_in_ways(graphs[k]) <= 20_000
            must(check(form, answer) == (0, 0) and (not small or lowest_price(graphs[k])[0] == price), name)
        must(stated.get(k) in (None, price if k in answers else refusals[k]), name)
        yield name, (*refusals[k], price, int(k in answers), check(form, answer)[0], *refusal_of_builder(form, LONGEST_ANSWER - 1), 0)


if __name__ == "__main__":
    stdin = b"".join(len(form).to_bytes(4, "big") + form for _, form in vectors)
    answers = list(solved())
    counts = {number: sum(1 for _, answer in answers if answer[0] == number) for number in range(9)}
    short = sum(1 for _, answer in answers if answer[5] == 9)
    summary = f"{len(vectors)} vectors, {len(stdin)} bytes, seed {SEED}; by number: {counts}; 9 in {short} of them"
    must(len(stdin) < 400_000 and max(len(form) for _, form in vectors) <= 4096 and all(counts.values()), summary)
    lines = [(name + way, " ".join(map(str, answer))) for name, answer in answers for way in ("", ", no guess")]
    stored.keep("builder_vectors", stdin, lines, summary)
