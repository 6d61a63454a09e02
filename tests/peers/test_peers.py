"""The unproved peers of the benchmark against the independent reference: so that they do the same work as the library.

    python3 tests/peers/test_peers.py [SEED [TIMES]]

The checker: number and place equal the reference's, on good and damaged pairs. The builder: refusals equal the reference's, prices
equal cycle cancelling's, each answer is accepted by the reference, bytes behind it are kept.
"""

import ctypes
import os
import random
import subprocess
import sys
from collections import Counter

ROOT = os.path.join(os.path.dirname(os.path.abspath(__file__)), "..", "..")
for folder in ("tests", "tests/reference", "tests/solver", "tests/vectors"):
    sys.path.insert(0, os.path.join(ROOT, folder))

from cases import D, D_ANSWER, D_WITH_3, D_WITH_3_ANSWER, L, L_ANSWER, X, X_ANSWER
from damage import damaged, every_single
from exists import refusal_of_builder
from forms import LONGEST_ANSWER, check, encode_answer, encode_graph, read_graph
from generate import make
from make_reader_vectors import vectors
from network import solve
from tally import end, holds_that

COUNTS = {"small": 1500, "small_reads": 500, "genes": 133, "splicing": 300, "hard_reads": 200, "dense": 60, "wide_demands": 60, "limits": 20}
DAMAGES = 4

subprocess.run(["bash", os.path.join(ROOT, "bench", "peers", "build")], check=True)
peers = ctypes.CDLL(os.path.join(ROOT, "bench", "peers", "built", "libpeers.so"))
peers.peer_check.restype = ctypes.c_uint64
peers.peer_check.argtypes = [ctypes.c_char_p, ctypes.c_size_t, ctypes.c_char_p, ctypes.c_size_t, ctypes.POINTER(ctypes.c_uint64)]
peers.peer_build.restype = ctypes.c_size_t
peers.peer_build.argtypes = [ctypes.c_char_p, ctypes.c_size_t, ctypes.c_char_p, ctypes.c_size_t,
                             ctypes.POINTER(ctypes.c_uint64), ctypes.POINTER(ctypes.c_uint64)]


def peer_check(graph, answer):
    place = ctypes.c_uint64(77)
    number = peers.peer_check(graph, len(graph), answer, len(answer), ctypes.byref(place))
    return number, place.value


def peer_build(graph, room):
    number, place = ctypes.c_uint64(77), ctypes.c_uint64(77)
    lent = ctypes.create_string_buffer(b"\xa5" * (room + 16), room + 16)
    written = peers.peer_build(graph, len(graph), lent, room, ctypes.byref(number), ctypes.byref(place))
    holds_that("bytes behind the answer", lent.raw[written:], b"\xa5" * (room + 16 - written))
    return (number.value, place.value), lent.raw[:written]


seed = int(sys.argv[1]) if len(sys.argv) > 1 else 1
times = int(sys.argv[2]) if len(sys.argv) > 2 else 1
print(f"seed {seed}")
numbers = Counter()


def compare(name, graph, answer):
    wanted = check(graph, answer)
    numbers[wanted[0]] += 1
    holds_that(lambda: f"{name}, graph {graph.hex()}, answer {answer.hex()}", peer_check(graph, answer), wanted)


d_answer = encode_answer(D_ANSWER)
for name, form in vectors:
    compare(name, form, d_answer)
    holds_that(name, peer_build(form, LONGEST_ANSWER)[0], refusal_of_builder(form, LONGEST_ANSWER))
for graph, answer in ((D, D_ANSWER), (D_WITH_3, D_WITH_3_ANSWER), (L, L_ANSWER), (X, X_ANSWER)):
    compare("as it is", encode_graph(graph), encode_answer(answer))
    for name, g, a in every_single(graph, answer):
        compare(name, g, a)

for family, count in COUNTS.items():
    graphs = make(family, seed, count * times)
    for k, (graph, answer) in enumerate(zip(graphs, solve(graphs))):
        rng = random.Random(f"damage {family} {seed} {k}")
        form = encode_graph(graph)
        for room in (LONGEST_ANSWER, LONGEST_ANSWER - 1) if k % 10 == 0 else (LONGEST_ANSWER,):
            refusal, written = peer_build(form, room)
            holds_that(f"{family} {k}", refusal, refusal_of_builder(form, room))
        if answer is None:
            continue
        refusal, written = peer_build(form, LONGEST_ANSWER + 5)
        compare(f"{family} {k} built with LEMON", form, written)
        holds_that(lambda: f"{family} {k} built with LEMON, {form.hex()}", check(form, written), (0, 0))
        holds_that(f"{family} {k}, price", int.from_bytes(written[7:15], "big"), answer.price)
        compare(f"{family} {k}", form, encode_answer(answer))
        for _ in range(DAMAGES):
            compare(*damaged(rng, graph, answer))
    print(f"{family}: {len(graphs)} graphs")

print("pairs by number:", dict(sorted(numbers.items())))
holds_that("numbers that came up", sorted(numbers), [*range(8), *range(11, 23)])
end()
