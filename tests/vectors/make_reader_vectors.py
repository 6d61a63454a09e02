"""Writes the reader's vectors: crates/reader_vectors/stdin (records: length in four bytes, then a form's bytes) and
crates/reader_vectors/stdout (for each record a line NUMBER PLACE, from the independent reader of tests/reference).

    python3 tests/vectors/make_reader_vectors.py            write both files
    python3 tests/vectors/make_reader_vectors.py --check    only compare the files with what would be written
    python3 tests/vectors/make_reader_vectors.py --list     print line number, answer and name of each vector
"""

import itertools
import os
import random
import sys

ROOT = os.path.join(os.path.dirname(os.path.abspath(__file__)), "..", "..")
for folder in ("tests", "tests/reference"):
    sys.path.insert(0, os.path.join(ROOT, folder))

import stored
from cases import D, L, NONE_ASKED, ONE, X
from forms import LONGEST_GRAPH, Graph, encode_graph, read_graph
from tally import must

SEED = 20240601
vectors = []


def add(name, data):
    vectors.append((name, bytes(data)))


def with_length(data):
    """The same bytes with the length word that they should have."""
    return len(data).to_bytes(4, "big") + bytes(data[4:])


def put(data, at, width, value):
    data = bytearray(data)
    data[at:at + width] = value.to_bytes(width, "big")
    return bytes(data)


def vertex_at(graph, v):
    return 13 + 5 * v


def arc_at(graph, a):
    return 13 + 5 * len(graph.vertices) + 10 * a


def read_at(graph, r):
    return arc_at(graph, len(graph.arcs)) + sum(1 + len(read) for read in graph.reads[:r])


# R: a graph with reads of lengths 2 to 4, in which vertices, arcs and reads each have a first, a middle and a last.
R = Graph(1_000_000, [(1, 1), (0, 3), (3, 0), (0, 1_000_000), (0, 2), (2, 1)],
          [(0, 1, 5, 0), (0, 2, 7, 1), (1, 2, 0, 2), (1, 3, 1_000_000, 0), (2, 3, 4, 1), (3, 4, 1, 0), (3, 5, 9, 1_000_000), (4, 5, 2, 3)],
          [(0, 1, 2), (3, 5), (1, 2, 3, 4)])


def chain(vertices, reads):
    return Graph(10, [(3, 1)] * vertices, [(v, v + 1, 0, 0) for v in range(vertices - 1)], reads)


def with_arcs(vertices, arcs):
    every_pair = [(tail, head) for tail in range(vertices) for head in range(tail + 1, vertices)]
    shortest = sorted(sorted(every_pair, key=lambda arc: arc[1] - arc[0])[:arcs])
    return Graph(0, [(3, 0)] * vertices, [(tail, head, 0, 0) for tail, head in shortest], [])


d, r = encode_graph(D), encode_graph(R)
longest_graph = with_arcs(64, 256)._replace(opening=1_000_000_000, reads=[tuple(range(k, k + 16)) for k in range(16)])
longest = encode_graph(longest_graph)
must(len(longest) == LONGEST_GRAPH, "the longest graph form is not as long as the limits allow")

# The document's own graphs.
for name, graph in (("D", D), ("R", R), ("L", L), ("X", X), ("one vertex", ONE), ("one vertex, nothing asked", NONE_ASKED)):
    add(f"{name} as it is", encode_graph(graph))
add("the longest form", longest)
add("empty input", b"")

# 1: too short, or a length word that differs.
for length in range(1, 14):
    add(f"D's first {length} bytes, length word right", with_length(d[:length])[:length])
    add(f"{length} zeros", bytes(length))
add("a header of 12 bytes", with_length(d[:12]))
add("a header of 13 bytes and nothing else", with_length(d[:13]))
for value in (0, 13, 72, 74, 73 + 256, 73 + 65536, 73 + 16777216, 73 << 8, 73 << 16, 73 << 24, 2**32 - 1, 2**31 + 73):
    add(f"D, length word {value}", put(d, 0, 4, value))

# 2: the version.
for version in (0, 2, 3, 4, 5, 128, 255):
    add(f"D, version {version}", put(d, 4, 1, version))

# 3: the counts, and the forms just inside and just outside their ranges.
for n in (0, 1, 2, 3, 5, 63, 64, 65, 128, 255):
    add(f"D, vertex count {n}", put(d, 5, 1, n))
for n in (1, 2, 63, 64, 65):
    add(f"{n} vertices", encode_graph(chain(n, [])))
for arcs in (0, 1, 3, 5, 255, 256, 257, 512, 1024, 65280, 65535):
    add(f"D, arc count {arcs}", put(d, 6, 2, arcs))
for arcs in (0, 1, 255, 256, 257):
    add(f"{arcs} arcs", encode_graph(with_arcs(64, arcs)))
for reads in (1, 16, 17, 128, 255):
    add(f"D, read count {reads}", put(d, 8, 1, reads))
for reads in (0, 1, 15, 16, 17):
    add(f"{reads} reads", encode_graph(chain(4, [(0, 1)] * reads)))
for n, arcs, reads in itertools.product((0, 4, 65), (4, 257), (0, 17)):
    add(f"D, counts {n} {arcs} {reads}", put(put(put(d, 5, 1, n), 6, 2, arcs), 8, 1, reads))

# 4: opening price, flags, demands, costs.
for value in (0, 1, 999_999_999, 1_000_000_000, 1_000_000_001, 2**31, 2**32 - 1):
    add(f"D, opening {value}", put(d, 9, 4, value))
for graph, form, name in ((D, d, "D"), (R, r, "R")):
    for v in range(len(graph.vertices)):
        for flags in (0, 1, 2, 3, 4, 7, 128, 255):
            add(f"{name}, vertex {v} flags {flags}", put(form, vertex_at(graph, v), 1, flags))
        for demand in (0, 999_999, 1_000_000, 1_000_001, 1_000_000 + 2**24, 2**32 - 1):
            add(f"{name}, vertex {v} demand {demand}", put(form, vertex_at(graph, v) + 1, 4, demand))
    for a in range(len(graph.arcs)):
        for what, shift in (("cost", 2), ("demand", 6)):
            for value in (0, 1_000_000, 1_000_001, 1_000_000 + 2**24, 2**32 - 1):
                add(f"{name}, arc {a} {what} {value}", put(form, arc_at(graph, a) + shift, 4, value))

# 6: the ends of arcs and their order.
for graph, form, name in ((D, d, "D"), (R, r, "R")):
    n = len(graph.vertices)
    for a, (tail, head, _, _) in enumerate(graph.arcs):
        for t, h in itertools.product((0, 1, tail, n - 1, n, 255), (0, 1, tail, head, n - 1, n, 255)):
            add(f"{name}, arc {a} from {t} to {h}", put(put(form, arc_at(graph, a), 1, t), arc_at(graph, a) + 1, 1, h))
    for a, b in itertools.permutations(range(len(graph.arcs)), 2):
        swapped = list(graph.arcs)
        swapped[a], swapped[b] = swapped[b], swapped[a]
        if a < b:
            add(f"{name}, arcs {a} and {b} exchanged", encode_graph(graph._replace(arcs=swapped)))
        doubled = list(graph.arcs)
        doubled[a] = doubled[b]
        add(f"{name}, arc {a} replaced by arc {b}", encode_graph(graph._replace(arcs=doubled)))
for v in range(3):
    arcs = sorted(with_arcs(3, 2).arcs + [(v, v, 0, 0)])
    add(f"arc from {v} to {v} among three vertices", encode_graph(with_arcs(3, 2)._replace(arcs=arcs)))

# 7: read counts, vertices and pairs.
for length in (0, 1, 2, 3, 15, 16, 17, 18, 64):
    add(f"a chain, read of {length} vertices", encode_graph(chain(64, [tuple(range(length))])))
    add(f"a chain, second read of {length} vertices", encode_graph(chain(64, [(0, 1), tuple(range(length))])))
for k in range(len(R.reads)):
    at = read_at(R, k)
    for count in (0, 1, 2, 3, 4, 5, 16, 17, 128, 255):
        add(f"R, read {k} count {count}", put(r, at, 1, count))
    for i in range(len(R.reads[k])):
        for vertex in (0, 1, 2, 3, 4, 5, 6, 7, 64, 255):
            add(f"R, read {k} vertex {i} is {vertex}", put(r, at + 1 + i, 1, vertex))
    reversed_read = [tuple(reversed(read)) if j == k else read for j, read in enumerate(R.reads)]
    add(f"R, read {k} reversed", encode_graph(R._replace(reads=reversed_read)))
for read in ((0, 2), (2, 0), (0, 0), (3, 4), (4, 4), (63, 64), (62, 63), (62, 63, 64), (0, 1, 3), (0, 1, 1, 2)):
    add(f"a chain, read {read}", encode_graph(chain(64, [read])))
for read in ((0, 1), (0, 2), (62, 63), (59, 63), (0, 63), (4, 8), (4, 9), (31, 32, 36), (31, 35, 40)):
    add(f"256 arcs, read {read}", encode_graph(with_arcs(64, 256)._replace(reads=[read])))
add("no arcs, a read", encode_graph(Graph(1, [(3, 1)] * 2, [], [(0, 1)])))

# 5: each truncation, and bytes appended; with the length word as it was, and corrected.
for form, name in ((d, "D"), (r, "R")):
    for length in range(len(form)):
        add(f"{name} cut to {length} bytes", form[:length])
        if length >= 4:
            add(f"{name} cut to {length} bytes, length word corrected", with_length(form[:length]))
for form, name in ((d, "D"), (r, "R"), (longest, "the longest form"), (encode_graph(ONE), "one vertex")):
    for more in (bytes(1), bytes([1]), bytes([2, 0, 1]), bytes(5), bytes([255]), bytes(10), bytes([255] * 16)):
        if name != "the longest form" or len(more) == 1:
            add(f"{name} with {len(more)} bytes {more[0]} .. appended", form + more)
            add(f"{name} with {len(more)} bytes {more[0]} .. appended, length word corrected", with_length(form + more))
for length in (len(longest) - 1, len(longest) - 16, len(longest) - 17, len(longest) - 18, read_at(longest_graph, 0), arc_at(longest_graph, 255)):
    add(f"the longest form cut to {length} bytes, length word corrected", with_length(longest[:length]))
add("the longest form, last vertex out of range", put(longest, len(longest) - 1, 1, 64))
add("the longest form, last arc's demand out of range", put(longest, arc_at(longest_graph, 255) + 6, 4, 1_000_001))
add("the longest form, last read's count 17", put(longest, read_at(longest_graph, 15), 1, 17))


# Two faults in one form: the order rules decide. Each fault is a change of bytes that leaves all others where they are, or a cut
# or an extension of the whole.
def faults_of_r():
    n = len(R.vertices)
    yield "length word", lambda form: put(form, 0, 4, 7)
    yield "version", lambda form: put(form, 4, 1, 2)
    yield "vertex count 0", lambda form: put(form, 5, 1, 0)
    yield "vertex count 65", lambda form: put(form, 5, 1, 65)
    yield "arc count 257", lambda form: put(form, 6, 2, 257)
    yield "read count 17", lambda form: put(form, 8, 1, 17)
    yield "one vertex more", lambda form: put(form, 5, 1, n + 1)
    yield "one arc fewer", lambda form: put(form, 6, 2, len(R.arcs) - 1)
    yield "one read fewer", lambda form: put(form, 8, 1, len(R.reads) - 1)
    yield "one read more", lambda form: put(form, 8, 1, len(R.reads) + 1)
    yield "opening", lambda form: put(form, 9, 4, 1_000_000_001)
    for v in (0, 3, n - 1):
        yield f"vertex {v} flags", lambda form, v=v: put(form, vertex_at(R, v), 1, 4)
        yield f"vertex {v} demand", lambda form, v=v: put(form, vertex_at(R, v) + 1, 4, 1_000_001)
    for a in (0, 4, len(R.arcs) - 1):
        yield f"arc {a} cost", lambda form, a=a: put(form, arc_at(R, a) + 2, 4, 1_000_001)
        yield f"arc {a} demand", lambda form, a=a: put(form, arc_at(R, a) + 6, 4, 1_000_001)
        yield f"arc {a} loop", lambda form, a=a: put(form, arc_at(R, a) + 1, 1, form[arc_at(R, a)])
        yield f"arc {a} head", lambda form, a=a: put(form, arc_at(R, a) + 1, 1, n)
        if a > 0:
            yield f"arc {a} not ascending", lambda form, a=a: put(form, arc_at(R, a), 2, R.arcs[a - 1][0] * 256 + R.arcs[a - 1][1])
    for k in range(len(R.reads)):
        yield f"read {k} count 1", lambda form, k=k: put(form, read_at(R, k), 1, 1)
        yield f"read {k} count 17", lambda form, k=k: put(form, read_at(R, k), 1, 17)
        yield f"read {k} count 16", lambda form, k=k: put(form, read_at(R, k), 1, 16)
        yield f"read {k} vertex", lambda form, k=k: put(form, read_at(R, k) + 2, 1, n)
        yield f"read {k} pair", lambda form, k=k: put(form, read_at(R, k) + 1, 1, 5)
    for record, at in (("vertex 2", vertex_at(R, 2)), ("arc 0", arc_at(R, 0)), ("arc 5", arc_at(R, 5)), ("read 0", read_at(R, 0)), ("read 2", read_at(R, 2))):
        yield f"cut before {record}", lambda form, at=at: with_length(form[:at])
        yield f"cut inside {record}", lambda form, at=at: with_length(form[:at + 2])
    yield "a byte appended", lambda form: with_length(form + bytes(1))


for (first_name, first), (second_name, second) in itertools.combinations(list(faults_of_r()), 2):
    # A cut comes after the other fault, so that its bytes are there to be changed, and a wrong length word comes last.
    wrong_length = first_name == "length word"
    add(f"R: {first_name}, {second_name}", first(second(r)) if wrong_length else second(first(r)))

# Random bytes and random edits.
rng = random.Random(SEED)
for _ in range(60):
    add("random bytes", bytes(rng.randrange(256) for _ in range(rng.randrange(120))))
for _ in range(60):
    add("random bytes, length word right", with_length(bytes(rng.randrange(256) for _ in range(rng.randrange(13, 120)))))
for _ in range(120):
    body = bytes(rng.choice((0, 0, 0, 1, 1, 2, 3, 4, rng.randrange(256))) for _ in range(rng.randrange(160)))
    header = bytes(4) + bytes([1, rng.randrange(1, 6), 0, rng.randrange(5), rng.randrange(4)]) + rng.randrange(1_000_000_000).to_bytes(4, "big")
    add("a good header, random records", with_length(header + body))
for _ in range(300):
    form = bytearray(rng.choice((d, r, r)))
    for _ in range(rng.randrange(1, 4)):
        form[rng.randrange(4, len(form))] = rng.choice((0, 1, 2, 3, 4, 5, 6, 17, 255, rng.randrange(256)))
    add("random edits", form)

stdin = b"".join(len(data).to_bytes(4, "big") + data for _, data in vectors)
answers = [read_graph(data) for _, data in vectors]

if __name__ == "__main__":
    counts = {number: sum(1 for answer in answers if answer[0] == number) for number in range(8)}
    must(max(len(data) for _, data in vectors) <= 4096 and all(counts.values()), f"a form is too long, or a number does not come up: {counts}")
    lines = [(name, f"{number} {place}") for (name, _), (number, place) in zip(vectors, answers)]
    stored.keep("reader_vectors", stdin, lines, f"{len(vectors)} vectors, {len(stdin)} bytes, seed {SEED}; by number: {counts}")
