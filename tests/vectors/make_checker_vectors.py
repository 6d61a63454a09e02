"""Writes the checker's vectors: crates/checker_vectors/stdin and crates/checker_vectors/stdout, from the independent checker of tests/reference.

    python3 tests/vectors/make_checker_vectors.py            write both files
    python3 tests/vectors/make_checker_vectors.py --check    only compare the files with what would be written
    python3 tests/vectors/make_checker_vectors.py --list     print line number, answer and name of each vector

Standard input holds groups: a graph (length in four bytes, then the form's bytes), the number of answers to it (four bytes), and for
each answer its form (length in four bytes, then bytes) and the number of a path (eight bytes). For each answer there is a line
NUMBER PLACE NUMBER PLACE VERTEX ..: what the check gives, what the sister call of the hand-out gives, and what is handed out.
"""

import itertools
import os
import random
import sys

ROOT = os.path.join(os.path.dirname(os.path.abspath(__file__)), "..", "..")
for folder in ("tests", "tests/reference"):
    sys.path.insert(0, os.path.join(ROOT, folder))

import make_reader_vectors
import stored
from cases import (D, D_ANSWER, D_MARKS, D_WITH_3, D_WITH_3_ANSWER, D_WITH_READ, L, L_ANSWER, NONE_ASKED, NONE_ASKED_ANSWER, NO_END, ONE,
                   ONE_ANSWER, X, X_ANSWER)
from damage import damaged, every_single
from forms import (LONGEST_ANSWER, LONGEST_GRAPH, MAX_COST, MAX_DEMAND, MAX_MARK, MAX_OPENING, MAX_PATHS, MAX_WEIGHT, Answer, Graph, encode_answer,
                   encode_graph, hand_out, price_of_cover, read_graph)
from make_reader_vectors import R, put, with_arcs, with_length
from tally import must

SEED = 20240602
FAR = (2**32 - 1, 2**32, 2**63, 2**64 - 1)
vectors = []


def add(name, graph, answer, k=None):
    """A vector; where no path number is asked for, one that is below, at or above the number of paths, in turn."""
    if isinstance(graph, Graph):
        graph = encode_graph(graph)
    if isinstance(answer, Answer):
        answer = encode_answer(answer)
    if k is None:
        k = (0, 1, 2, 3, 4, 0, 1, 2)[len(vectors) % 8] if len(vectors) % 40 else FAR[len(vectors) // 40 % 4]
    vectors.append((name, bytes(graph), bytes(answer), k))


def mark_at(v, side):
    return 15 + 8 * v + 4 * side


def path_at(graph, answer, p):
    return 15 + 8 * len(graph.vertices) + sum(5 + len(path) for _, path in answer.paths[:p])


def with_mark(answer, v, side, value):
    return put(encode_answer(answer), mark_at(v, side), 4, value % 2**32)


def with_path(answer, p, weight, path):
    return answer._replace(paths=answer.paths[:p] + [(weight, tuple(path))] + answer.paths[p + 1:])


# R is the graph of the reader's vectors. Q has starts and ends inside, a path and its extension, reads; its marks are not all of one kind.
R_ANSWER = Answer(1_000_016_000_043, [(1_000_000, 1_000_000), (1_000_005, 1_000_000), (1_000_000, 1_000_000), (1_000_004, 1_000_004), (1_000_005, 1_000_005), (0, 0)],
                  [(3, (0, 1, 2, 3, 4, 5)), (1, (0, 2, 3, 5)), (999_999, (2, 3, 5))])
P = Graph(10, [(3, 3), (2, 2), (2, 1)], [(0, 1, 1, 0), (1, 2, 1, 0)], [])
P_ANSWER = Answer(33, [(10, 0), (1, 0), (1, 0)], [(1, (0,)), (1, (0, 1)), (1, (0, 1, 2))])
Q = Graph(10, [(3, 4), (2, 2), (1, 2), (3, 1), (0, 1), (2, 2)],
          [(0, 1, 2, 1), (0, 2, 3, 0), (1, 3, 1, 1), (2, 3, 4, 2), (2, 4, 0, 0), (3, 4, 5, 0), (3, 5, 1, 0), (4, 5, 7, 1)],
          [(0, 1, 3), (2, 4, 5), (1, 3, 5)])
Q_ANSWER = Answer(77, [(10, 7), (9, 0), (10, 10), (0, 0), (5, 5), (1, 0)], [(1, (0, 1)), (1, (0, 1, 3, 5)), (2, (0, 2, 3)), (1, (2, 4, 5))])
q = encode_answer(Q_ANSWER)

PAIRS = [("D", D, D_ANSWER), ("D with read 0 1 3", D_WITH_READ, D_ANSWER), ("D with demand 3 on arc 0-1", D_WITH_3, D_WITH_3_ANSWER),
         ("one vertex", ONE, ONE_ANSWER), ("one vertex, nothing asked", NONE_ASKED, NONE_ASKED_ANSWER), ("L", L, L_ANSWER), ("X", X, X_ANSWER),
         ("R", R, R_ANSWER), ("P", P, P_ANSWER), ("Q", Q, Q_ANSWER)]

# Accepted, with every path handed out, and 23 behind the last.
for name, graph, answer in PAIRS:
    for k in (*range(len(answer.paths) + 2), *FAR):
        add(f"{name}, path {k}", graph, answer, k)

# The document's rows. (Those that the reader decides are in its own vectors too.)
add("D, all marks 0", D, D_ANSWER._replace(marks=[(0, 0)] * 4))
add("D, in-mark of 0 set to 11", D, D_ANSWER._replace(marks=[(11, 10)] + D_MARKS[1:]))
add("D, price stated as 33", D, D_ANSWER._replace(price=33))
add("D, only path 0 1 3, price 16", D, Answer(16, D_MARKS, [(1, (0, 1, 3))]))
add("one vertex, flag 1, no paths", NO_END, Answer(0, [(0, 0)], []))
add("one vertex, flag 1, its path", NO_END, Answer(10, [(10, 0)], [(1, (0,))]))
add("L, reads joined in file order", L, Answer(26, [(10, 10)] * 3 + [(0, 0)] * 2, [(1, (0, 1, 2, 3)), (1, (0, 1, 2, 4))]))
add("a read met with others between", D._replace(arcs=sorted(D.arcs + [(0, 3, 9, 0)]), reads=[(0, 3)]), D_ANSWER)
for name, graph in (("arc from 1 to 1", D._replace(arcs=D.arcs[:2] + [(1, 1, 4, 0)] + D.arcs[3:])), ("read of 1", D._replace(reads=[(0,)])),
                    ("demand 1,000,001", D._replace(vertices=[(1, 1_000_001)] + D.vertices[1:]))):
    add(f"D, {name}", graph, D_ANSWER)
add("D, demand 1,000,000", D._replace(vertices=[(1, 1_000_000)] + D.vertices[1:]), D_ANSWER)
add("a 12-byte graph", with_length(encode_graph(D)[:12]), D_ANSWER)

# The graph is read wholly first: one form for each number and place that the reader's vectors have, with a good answer and with none.
seen = set()
for name, form in make_reader_vectors.vectors:
    if read_graph(form) not in seen and len(form) < 200:
        seen.add(read_graph(form))
        add(f"graph: {name}", form, D_ANSWER)
        add(f"graph: {name}, no answer", form, b"")

# 11: too short for the marks, or a length word that differs.
d = encode_answer(D_ANSWER)
for length in range(len(d)):
    add(f"D, answer's first {length} bytes, length word right", D, with_length(d[:length])[:length])
for n in (1, 2, 4, 63, 64):
    graph = with_arcs(n, 0)
    good = encode_answer(Answer(0, [(0, 0)] * n, []))
    for form in (good, good[:-1], good + bytes(1), good[:15], good[:14]):
        add(f"{n} vertices, answer of {len(form)} bytes", graph, with_length(form))
for value in (0, 15, 62, 64, 63 + 256, 63 + 65536, 63 + 16777216, 63 << 8, 63 << 24, 2**32 - 1, 2**31 + 63):
    add(f"D, answer's length word {value}", D, put(d, 0, 4, value))

# 12: the version.
for version in (0, 2, 3, 4, 5, 128, 255):
    add(f"D, answer's version {version}", D, put(d, 4, 1, version))

# 13: the number of paths.
for count in (0, 1, 3, 4, 255, 256, 257, 463, 464, 465, 466, 512, 721, 65535):
    add(f"D, {count} paths stated", D, put(d, 5, 2, count))

# 14: marks.
for v, side in itertools.product(range(6), range(2)):
    for value in (MAX_MARK, MAX_MARK + 1, -MAX_MARK, -MAX_MARK - 1, 2**31 - 1, -2**31, -1):
        add(f"Q, {('in', 'out')[side]}-mark of {v} is {value}", Q, with_mark(Q_ANSWER, v, side, value))
zero = with_arcs(64, 256)
nothing = Answer(0, [(0, 0)] * 64, [])
for v, side, value in itertools.product((0, 31, 62, 63), range(2), (MAX_MARK, MAX_MARK + 1, -MAX_MARK - 1, -2**31)):
    add(f"64 vertices, {('in', 'out')[side]}-mark of {v} is {value}", zero, with_mark(nothing, v, side, value))
# Marks at the ends of their range that are accepted: vertex 1 is neither start nor end and has no arc.
alone = Graph(10, [(3, 1), (0, 0), (3, 1)], [], [])
for into, out in ((MAX_MARK, MAX_MARK), (MAX_MARK, -MAX_MARK), (-MAX_MARK, -MAX_MARK), (-MAX_MARK, MAX_MARK), (MAX_MARK - 1, MAX_MARK), (0, 1), (0, 0)):
    add(f"a vertex that no path meets has marks {into} and {out}", alone, Answer(20, [(10, 0), (into, out), (10, 0)], [(1, (0,)), (1, (2,))]))

# 15: bytes appended; truncations of each pair come below.
for name, graph, answer in PAIRS:
    form = encode_answer(answer)
    for more in (bytes(1), bytes([0, 0, 0, 1, 1, 0]), bytes(5), bytes([255] * 9)):
        add(f"{name}, {len(more)} bytes {more[0]} .. appended", graph, form + more)
        add(f"{name}, {len(more)} bytes {more[0]} .. appended, length word right", graph, with_length(form + more))
for form in (q, encode_answer(R_ANSWER)):
    graph = Q if form == q else R
    for length in range(len(form)):
        add(f"cut to {length} bytes, length word right", graph, with_length(form[:length])[:length])

# 16: vertex counts, vertices, pairs, starts and ends.
for p, (weight, path) in enumerate(Q_ANSWER.paths):
    at = path_at(Q, Q_ANSWER, p)
    for count in (0, 1, 2, 3, 4, 5, 63, 64, 65, 128, 255):
        add(f"Q, path {p} count {count}", Q, put(q, at + 4, 1, count))
    for i in range(len(path)):
        for vertex in (0, 1, 2, 3, 4, 5, 6, 7, 64, 255):
            add(f"Q, path {p} vertex {i} is {vertex}", Q, put(q, at + 5 + i, 1, vertex))
    for other in ((0,), (1,), (3,), (4,), (5,), (0, 1), (0, 2), (1, 3), (0, 3), (0, 1, 3), (3, 4), (3, 5), (3, 4, 5), (0, 1, 2), (5, 3), (0, 0), (6,), (0, 6)):
        add(f"Q, path {p} is {other}", Q, with_path(Q_ANSWER, p, weight, other))
chain = with_arcs(64, 63)._replace(vertices=[(3, 0)] * 64)
for count in (1, 2, 63, 64):
    for first in {0, 64 - count}:
        path = tuple(range(first, first + count))
        add(f"a path of {count} vertices from {first}", chain, nothing._replace(paths=[(1, path)]))
for count in (65, 66, 255):
    add(f"a path of {count} vertices", chain, nothing._replace(paths=[(1, tuple(k % 64 for k in range(count)))]))

# 17: weights and their running total.
for p, (weight, path) in enumerate(Q_ANSWER.paths):
    others = sum(w for w, _ in Q_ANSWER.paths) - weight
    for value in (0, 1, 2, 255, 256, MAX_WEIGHT - others, MAX_WEIGHT - others + 1, MAX_WEIGHT, MAX_WEIGHT + 1, 2**31, 2**32 - 1):
        add(f"Q, path {p} weight {value}", Q, with_path(Q_ANSWER, p, value, path))
for weights in ((MAX_WEIGHT,), (MAX_WEIGHT + 1,), (MAX_WEIGHT - 1, 1), (MAX_WEIGHT - 1, 2), (MAX_WEIGHT, 1), (1, MAX_WEIGHT), (1, MAX_WEIGHT - 1), (1, MAX_WEIGHT - 2, 1),
                (1, MAX_WEIGHT - 2, 2), (2**32 - 1, 1), (1, 2**32 - 1), (2**31, 2**31), (MAX_WEIGHT, 2**32 - MAX_WEIGHT, 1)):
    free = nothing._replace(paths=[(w, (v,)) for v, w in enumerate(weights)])
    add(f"64 vertices, weights {weights}", zero, free)
    priced = zero._replace(opening=MAX_OPENING)
    add(f"64 vertices at opening 1,000,000,000, weights {weights}", priced, free._replace(price=sum(weights) * MAX_OPENING % 2**64))

# 18: paths in order. A list comes before its own extensions.
for name, graph, answer in (("Q", Q, Q_ANSWER), ("P", P, P_ANSWER)):
    for order in itertools.permutations(range(len(answer.paths))):
        add(f"{name}, paths in order {order}", graph, answer._replace(paths=[answer.paths[p] for p in order]))
    for p, r in itertools.permutations(range(len(answer.paths)), 2):
        add(f"{name}, path {p} replaced by path {r}", graph, with_path(answer, p, *answer.paths[r]))

# 19: each item unmet, from the first to the last. Asked: every vertex and arc once, and reads.
for p in range(len(Q_ANSWER.paths)):
    fewer = Q_ANSWER._replace(paths=Q_ANSWER.paths[:p] + Q_ANSWER.paths[p + 1:])
    add(f"Q without path {p}", Q, fewer._replace(price=price_of_cover(Q, fewer.paths)))
for v, (flags, demand) in enumerate(Q.vertices):
    total = sum(weight for weight, path in Q_ANSWER.paths if v in path)
    for asked in (total, total + 1, total - 1, MAX_DEMAND):
        add(f"Q, vertex {v} asks for {asked}", Q._replace(vertices=Q.vertices[:v] + [(flags, asked)] + Q.vertices[v + 1:]), Q_ANSWER)
for a, (tail, head, cost, demand) in enumerate(Q.arcs):
    total = sum(weight for weight, path in Q_ANSWER.paths if (tail, head) in zip(path, path[1:]))
    for asked in (total, total + 1, max(0, total - 1), MAX_DEMAND):
        add(f"Q, arc {a} asks for {asked}", Q._replace(arcs=Q.arcs[:a] + [(tail, head, cost, asked)] + Q.arcs[a + 1:]), Q_ANSWER)
for read in ((0, 1), (1, 3), (3, 5), (0, 2), (2, 3), (2, 4), (4, 5), (3, 4), (0, 1, 3), (0, 2, 3), (1, 3, 5), (2, 3, 5), (0, 1, 3, 5), (0, 2, 3, 5), (0, 2, 4, 5)):
    for reads in ([read], [read] * 2, Q.reads + [read], [read] + Q.reads):
        add(f"Q with reads {reads}", Q._replace(reads=reads), Q_ANSWER)
asking = with_arcs(64, 256)._replace(vertices=[(3, 1)] * 64, reads=[tuple(range(k, k + 16)) for k in range(16)])
asking = asking._replace(arcs=[(tail, head, 0, 1) for tail, head, _, _ in asking.arcs])
arc_paths = [(1, (tail, head)) for tail, head, _, _ in asking.arcs]
for count in range(0, 65):
    add(f"all asked for, {count} vertices met", asking, nothing._replace(paths=[(1, (v,)) for v in range(count)]))
for count in (0, 1, 2, 3, 16, 64, 128, 200, 253, 254, 255, 256):
    paths = [(1, (v,)) for v in range(64)] + arc_paths[:count]
    add(f"all asked for, vertices and {count} arcs met", asking, nothing._replace(paths=sorted(paths, key=lambda p: p[1])))
for count in (0, 1, 2, 8, 15, 16):
    paths = arc_paths + [(1, read) for read in asking.reads[:count]]
    add(f"all asked for, vertices, arcs and {count} reads met", asking, nothing._replace(paths=sorted(paths, key=lambda p: p[1])))
add("all asked for, each read met but one, twice over", asking._replace(reads=asking.reads[:8] * 2),
    nothing._replace(paths=sorted(arc_paths + [(1, read) for read in asking.reads[:7]], key=lambda p: p[1])))

# 20: the stated price.
for name, graph, answer in PAIRS:
    for price in (answer.price + 1, max(0, answer.price - 1), answer.price ^ 2**32, answer.price ^ 2**63, answer.price << 8, 0, 2**64 - 1):
        add(f"{name}, price stated as {price}", graph, answer._replace(price=price % 2**64))

# 21: each slack by one, each item. Marks move by one, alone and together.
for name, graph, answer in PAIRS:
    for v, (into, out) in enumerate(answer.marks):
        for i, o in ((1, 0), (-1, 0), (0, 1), (0, -1), (1, 1), (-1, -1), (1, -1)):
            marks = answer.marks[:v] + [(into + i, out + o)] + answer.marks[v + 1:]
            add(f"{name}, marks of {v} moved by {i} and {o}", graph, answer._replace(marks=marks))
for v in range(64):
    marks = [(0, 0)] * 64
    marks[v] = ((1, 0), (0, -1), (-1, 0), (MAX_MARK, MAX_MARK), (-MAX_MARK, -MAX_MARK))[v % 5]
    add(f"64 vertices, marks of {v} {marks[v]}", zero, nothing._replace(marks=marks))
no_flags = zero._replace(vertices=[(0, 0)] * 64, arcs=[(tail, head, 5, 0) for tail, head, _, _ in zero.arcs])
for a in range(0, 256, 5):
    tail, head, _, _ = no_flags.arcs[a]
    for into in (5, 6) if a % 2 else (6,):
        # Every other arc has something to spare: only the arc from tail to head can be below 0.
        marks = [(into if v == head else v != tail, v != tail) for v in range(64)]
        add(f"64 vertices without flags, arc {a} short by {into - 5}", no_flags, nothing._replace(marks=marks))

# 22: sound marks whose bound is lower. (It is never higher: that is demand 3.)
for name, graph, answer in PAIRS:
    n = len(graph.vertices)
    for marks in ([(0, 0)] * n, [(-1, -1)] * n, [(min(into, 5), min(out, 5)) for into, out in answer.marks], [(into, min(into, max(out, 0))) for into, out in answer.marks]):
        add(f"{name}, marks {marks}", graph, answer._replace(marks=marks))
        add(f"{name}, marks {marks}, price 0", graph, answer._replace(marks=marks, price=0))
# A cover with copies to spare: right in all but its price.
add("D, a copy more", D, Answer(50, D_MARKS, [(2, (0, 1, 3)), (1, (0, 2, 3))]))
add("one vertex, a copy more", ONE, Answer(20, [(10, 0)], [(2, (0,))]))
add("nothing asked, a copy", NONE_ASKED, Answer(10, [(10, 0)], [(1, (0,))]))

# The limits. 464 and 465 paths, as long as they can be in number, at weights that total 320,000,016; the longest answer form.
whole = tuple(range(64))
long_paths = {whole} | {whole[:i] + whole[i + 1:] for i in range(64)}
for i, j in itertools.combinations(range(64), 2):
    if len(long_paths) < MAX_PATHS + 1:
        long_paths.add(tuple(v for v in whole if v not in (i, j)))
long_paths = sorted(long_paths)
top = asking._replace(vertices=[(3, 1)] * 64, arcs=[(tail, head, 0, 0) for tail, head, _, _ in asking.arcs])
must(len(encode_graph(top)) == LONGEST_GRAPH, "the longest graph form is not as long as the limits allow")
rest = MAX_WEIGHT - (MAX_PATHS - 1)
most = nothing._replace(paths=[(1, path) for path in long_paths[:MAX_PATHS - 1]] + [(rest, long_paths[MAX_PATHS - 1])])
for k in (0, 1, MAX_PATHS - 1, MAX_PATHS):
    add(f"464 long paths, 320,000,016 copies, path {k}", top, most, k)
add("464 long paths, 320,000,017 copies", top, with_path(most, MAX_PATHS - 1, rest + 1, long_paths[MAX_PATHS - 1]))
add("464 long paths, the last missing", top, with_length(put(encode_answer(most), 5, 2, MAX_PATHS - 1)))
add("465 long paths", top, nothing._replace(paths=[(1, path) for path in long_paths]))
add("464 long paths, the last two equal", top, with_path(most, MAX_PATHS - 1, 1, long_paths[MAX_PATHS - 2]))
for k, count in ((0, MAX_PATHS), (5, MAX_PATHS - 1)):
    form = encode_answer(nothing._replace(paths=[(1, whole)] * count))
    add(f"{count} times the longest path", top, form, k)
    must(count < MAX_PATHS or len(form) == LONGEST_ANSWER, "the longest answer form is not as long as the limits allow")
two_steps = Graph(0, [(1 if v < 32 else 2, MAX_DEMAND) for v in range(64)],
                  [(tail, 32 + (tail + step) % 32, MAX_COST, MAX_DEMAND) for tail in range(32) for step in range(8)], [])
two_steps = two_steps._replace(opening=MAX_OPENING, arcs=sorted(two_steps.arcs))
dear = Answer(256 * MAX_DEMAND * (MAX_OPENING + MAX_COST), [(MAX_OPENING, MAX_OPENING)] * 32 + [(0, 0)] * 32, [(MAX_DEMAND, arc[:2]) for arc in two_steps.arcs])
line = Graph(MAX_OPENING, [(1 if v == 0 else 2 if v == 63 else 0, MAX_DEMAND) for v in range(64)],
             [(v, v + 1, MAX_COST, MAX_DEMAND) for v in range(63)], [tuple(range(3 * k, 3 * k + 16)) for k in range(16)])
along = [(MAX_OPENING + v * MAX_COST, MAX_OPENING + v * MAX_COST if v < 63 else 0) for v in range(64)]
one_path = Answer(MAX_DEMAND * (MAX_OPENING + 63 * MAX_COST), along, [(MAX_DEMAND, whole)])
for name, graph, answer in (("256 arcs at the top of every range", two_steps, dear), ("64 vertices in a line at the top of every range", line, one_path)):
    add(f"{name}, first path", graph, answer, 0)
    add(f"{name}, behind the last", graph, answer, len(answer.paths))
    for value in (answer.price - 1, answer.price + 1, answer.price % 2**32):
        add(f"{name}, price {value}", graph, answer._replace(price=value))
    for v in (0, 31, 32, 63):
        into, out = answer.marks[v]
        for i, o in ((1, 0), (-1, 0), (0, 1), (0, -1), (1, 1), (-1, -1)):
            add(f"{name}, marks of {v} moved by {i} and {o}", graph, answer._replace(marks=answer.marks[:v] + [(into + i, out + o)] + answer.marks[v + 1:]))


# Two faults in one answer: the order rules decide. Each is a change of bytes that leaves all others where they are, or a cut or an extension.
def faults_of_q():
    yield "length word", lambda form: put(form, 0, 4, 7)
    yield "version", lambda form: put(form, 4, 1, 2)
    yield "465 paths", lambda form: put(form, 5, 2, 465)
    yield "one path fewer", lambda form: put(form, 5, 2, 3)
    yield "one path more", lambda form: put(form, 5, 2, 5)
    yield "price", lambda form: put(form, 7, 8, 78)
    for v, side, value in ((0, 0, MAX_MARK + 1), (3, 1, 2**32 - MAX_MARK - 1), (5, 1, MAX_MARK + 1)):
        yield f"mark of {v} out of range", lambda form, v=v, side=side, value=value: put(form, mark_at(v, side), 4, value)
    for v, side, value in ((0, 0, 11), (3, 0, 2**32 - 1), (5, 1, 2), (4, 1, 2**32 - 4)):
        yield f"a slack at {v} below 0", lambda form, v=v, side=side, value=value: put(form, mark_at(v, side), 4, value)
    yield "a lower bound", lambda form: put(form, mark_at(0, 0), 4, 9)
    for p, (weight, path) in enumerate(Q_ANSWER.paths):
        at = path_at(Q, Q_ANSWER, p)
        yield f"path {p} weight 0", lambda form, at=at: put(form, at, 4, 0)
        yield f"path {p} weight at the limit", lambda form, at=at: put(form, at, 4, MAX_WEIGHT)
        yield f"path {p} a copy fewer, or more", lambda form, at=at, weight=weight: put(form, at, 4, 1 if weight == 2 else 2)
        yield f"path {p} count 0", lambda form, at=at: put(form, at + 4, 1, 0)
        yield f"path {p} count 64", lambda form, at=at: put(form, at + 4, 1, 64)
        yield f"path {p} count 65", lambda form, at=at: put(form, at + 4, 1, 65)
        yield f"path {p} vertex", lambda form, at=at: put(form, at + 6, 1, 6)
        yield f"path {p} start", lambda form, at=at: put(form, at + 5, 1, 1)
        yield f"path {p} end", lambda form, at=at, path=path: put(form, at + 4 + len(path), 1, 4)
        if p >= 2:
            yield f"path {p} not ascending", lambda form, at=at, p=p: put(form, at + 5, 3, (0x000103, 0x000203)[p - 2])
    for p in range(len(Q_ANSWER.paths)):
        at = path_at(Q, Q_ANSWER, p)
        yield f"cut before path {p}", lambda form, at=at: with_length(form[:at])
        yield f"cut inside path {p}", lambda form, at=at: with_length(form[:at + 6])
    yield "a byte appended", lambda form: with_length(form + bytes(1))


for (first_name, first), (second_name, second) in itertools.combinations(list(faults_of_q()), 2):
    # A cut comes after the other fault, so that its bytes are there to be changed, and a wrong length word comes last.
    wrong_length = first_name == "length word"
    done = first(second(q)) if wrong_length else second(first(q))
    add(f"Q: {first_name}, {second_name}", Q, done)

# Every single byte of D's pair changed, and every truncation.
for name, graph, answer in every_single(D, D_ANSWER):
    add(f"D: {name}", graph, answer)

# Random edits of pairs, and random bytes.
rng = random.Random(SEED)
for _ in range(900):
    name, graph, answer = rng.choice(PAIRS)
    add(f"{name}: random damage", *damaged(rng, graph, answer)[1:])
for _ in range(100):
    add("random answer", Q, with_length(bytes(rng.randrange(256) for _ in range(rng.randrange(4, 140)))))
    body = bytes(rng.choice((0, 0, 0, 1, 1, 2, 3, 5, rng.randrange(256))) for _ in range(rng.randrange(140)))
    add("a good header and marks, random paths", Q, with_length(put(q[:63], 5, 2, rng.randrange(5)) + body))

# Groups by graph, in the order in which each graph first comes.
groups = {}
for vector in vectors:
    groups.setdefault(vector[1], []).append(vector)
stdin = bytearray()
lines = []
for graph, members in groups.items():
    stdin += len(graph).to_bytes(4, "big") + graph + len(members).to_bytes(4, "big")
    for name, _, answer, k in members:
        stdin += len(answer).to_bytes(4, "big") + answer + k.to_bytes(8, "big")
        number, place, part = hand_out(graph, answer, k)
        checked = (0, 0) if number == 23 else (number, place)
        lines.append((name, " ".join(map(str, (*checked, number, place, *part)))))

if __name__ == "__main__":
    counts = {}
    for _, line in lines:
        number = int(line.split()[2])
        counts[number] = counts.get(number, 0) + 1
    summary = f"{len(lines)} vectors, {len(stdin)} bytes, seed {SEED}; by number: {dict(sorted(counts.items()))}"
    must(sorted(counts) == [*range(8), *range(11, 24)], summary)
    must(len(stdin) < 1_500_000 and max(len(graph) for graph in groups) <= 4096 and max(len(v[2]) for v in vectors) <= 65_536, summary)
    stored.keep("checker_vectors", stdin, lines, summary)
