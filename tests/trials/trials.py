"""Trials of the library from outside: its calls, through a driver in C, against the independent reader and checker (tests/reference) and
the second solvers (tests/solver).

    python3 tests/trials/trials.py SEED TIMES DRIVER    TIMES multiplies the number of graphs; DRIVER is a command

Number and place must be equal on good and damaged forms; built answers must be accepted by both checkers, at the price that the second
solver found; each lowest-price cover that the second solvers found must be accepted with sound marks; each path must be handed out as it
stands in the answer, and where it stands there. The driver looks at every byte that may not change.
"""

import os
import random
import subprocess
import sys
from collections import Counter

ROOT = os.path.join(os.path.dirname(os.path.abspath(__file__)), "..", "..")
for folder in ("tests/reference", "tests/solver", "tests/vectors"):
    sys.path.insert(0, os.path.join(ROOT, folder))

import exhaustive
import make_checker_vectors
import make_reader_vectors
from cases import D, D_ANSWER, D_WITH_3, D_WITH_3_ANSWER, L, L_ANSWER, X, X_ANSWER
from damage import damaged, every_single, with_length
from exists import refusal_of_builder
from forms import LONGEST_ANSWER, Answer, Refused, accept, check, decode_answer, decode_graph, encode_answer, encode_graph, hand_out, read_graph
from generate import LISTS, make
from network import solve

# How many graphs of each family; for the small ones an exhaustive search over the original reads gives covers too.
SMALL = {"every_small": 1200, "small": 900, "small_reads": 500}
LARGE = {"genes": 133, "splicing": 160, "hard_reads": 160, "dense": 40, "wide_demands": 40, "limits": 16}
DAMAGES = 4
SHOWN = 5

passed = failed = 0
numbers = Counter()


def part(data):
    return len(data).to_bytes(4, "big") + data


def vertices_at(graph_form, answer_form, k):
    """Where the vertices of path k stand in an answer form: behind the header, the marks, the paths before and its own weight and count."""
    graph = decode_graph(graph_form)
    answer = decode_answer(answer_form, graph)
    return 15 + 8 * len(graph.vertices) + sum(5 + len(path) for _, path in answer.paths[:k]) + 5


class Batch:
    """Cases for one run of the driver, each with what judges its line."""

    def __init__(self, driver):
        self.driver = driver
        self.cases = []

    def add(self, name, case, judge):
        self.cases.append((name, case, judge))

    def add_read(self, name, graph):
        self.add(name, b"r" + part(graph), equals(read_graph(graph)))

    def add_check(self, name, graph, answer, wanted=None):
        self.add(name, b"c" + part(graph) + part(answer), equals(wanted or check(graph, answer)))

    def add_hand_out(self, name, graph, answer, k):
        number, place, path = hand_out(graph, answer, k)
        offset = 0 if number else vertices_at(graph, answer, k)
        self.add(name, b"h" + part(graph) + part(answer) + k.to_bytes(8, "big"), equals((number, place, offset, len(path), path.hex() or "-")))

    def add_build(self, name, graph, room, keep):
        """Builds; an answer that is written goes to keep(bytes)."""
        self.add(name, b"b" + part(graph) + room.to_bytes(4, "big"), builds(graph, room, keep))

    def run(self, what):
        done = subprocess.run(self.driver, input=b"".join(case for _, case, _ in self.cases), capture_output=True)
        lines = done.stdout.decode().splitlines()
        for (name, case, judge), line in zip(self.cases, lines):
            count(judge(line), name, case)
        if done.returncode != 0 or len(lines) != len(self.cases):
            name, case, _ = self.cases[min(len(lines), len(self.cases) - 1)]
            count(f"the driver ended with {done.returncode} after {len(lines)} of {len(self.cases)} cases: {done.stderr.decode().strip()}", name, case)
        print(f"{what}: {len(self.cases)} cases", flush=True)
        self.cases = []


def count(message, name, case):
    global passed, failed
    if message is None:
        passed += 1
        return
    failed += 1
    if failed <= SHOWN:
        print(f"FAILED: {name}: {message}\n  case {case.hex()[:4000]}")


def equals(wanted):
    numbers[wanted[0]] += 1
    wanted = " ".join(map(str, wanted))
    return lambda line: None if line == wanted else f"got '{line[:300]}', wanted '{wanted[:300]}'"


def builds(graph, room, keep):
    wanted = refusal_of_builder(graph, room)
    numbers[wanted[0]] += 1
    if wanted != (0, 0):
        return equals((*wanted, 0, "-"))

    def judge(line):
        fields = line.split(" ")
        if len(fields) != 4 or fields[:2] != ["0", "0"]:
            return f"got '{line[:300]}', wanted an answer"
        answer = b"" if fields[3] == "-" else bytes.fromhex(fields[3])
        if len(answer) != int(fields[2]):
            return f"{fields[2]} bytes written, {len(answer)} stand there"
        keep(answer)
        return None

    return judge


# Forms that are stored or made without a solver.


def stored(batch):
    d_answer = encode_answer(D_ANSWER)
    for name, form in make_reader_vectors.vectors:
        batch.add_read(name, form)
        batch.add_build(name, form, LONGEST_ANSWER, lambda answer: None)
    batch.run("stored graph forms")
    for name, graph, answer, k in make_checker_vectors.vectors:
        batch.add_check(name, graph, answer)
        batch.add_hand_out(name, graph, answer, k)
    for graph, answer in ((D, D_ANSWER), (D_WITH_3, D_WITH_3_ANSWER), (L, L_ANSWER), (X, X_ANSWER)):
        for name, g, a in every_single(graph, answer):
            batch.add_check(name, g, a)
    batch.run("stored pairs, and each single fault of four pairs")
    for k in (0, 1, 2, 2**32, 2**64 - 1):
        batch.add_hand_out(f"D, path {k}", encode_graph(D), d_answer, k)
    for room in (0, 1, 14, 32_542, 32_543, 32_544, 40_960):
        for name, graph in (("D", D), ("X", X)):
            batch.add_build(f"{name}, room {room}", encode_graph(graph), room, lambda answer: None)
    batch.run("lent outputs of several lengths")


def random_bytes(batch, rng, times):
    d_answer = encode_answer(D_ANSWER)
    for _ in range(1000 * times):
        noise = bytes(rng.randrange(256) for _ in range(rng.randrange(200)))
        batch.add_read("random bytes", noise)
        batch.add_read("random bytes, length word right", with_length(noise))
        batch.add_check("random answer", encode_graph(D), with_length(noise))
        batch.add_check("random graph", with_length(noise), d_answer)
        batch.add_hand_out("random graph and answer", noise, noise[::-1], rng.randrange(2**64))
    batch.run("random bytes")


# Covers of lowest price, by the second solvers.


def other_covers(graph, answer, rng, times):
    """Lowest-price covers by exhaustive search that tries the paths in several orders, each with the marks of the second solver."""
    every_path = exhaustive.every_path
    seen = set()
    for turn in range(times):
        def shuffled(graph):
            paths = every_path(graph)
            if turn:
                rng.shuffle(paths)
            return paths
        exhaustive.every_path = shuffled
        try:
            price, cover = exhaustive.lowest_price(graph)
        finally:
            exhaustive.every_path = every_path
        if price != answer.price:
            raise RuntimeError(f"the second solvers differ: {graph}")
        seen.add(tuple(cover))
    return [Answer(answer.price, answer.marks, [(weight, path) for path, weight in cover]) for cover in sorted(seen)]


def family(batch, name, graphs, rng, small):
    built = {}
    covers = 0
    answers = solve(graphs)
    for k, (graph, answer) in enumerate(zip(graphs, answers)):
        form = encode_graph(graph)
        what = f"{name} {k}"
        batch.add_read(what, form)
        batch.add_build(what, form, LONGEST_ANSWER, lambda written, k=k: built.__setitem__(k, written))
        if k % 10 == 0:
            batch.add_build(f"{what}, one byte short", form, LONGEST_ANSWER - 1, lambda written: None)
            batch.add_build(f"{what}, room to spare", form, LONGEST_ANSWER + 1 + k % 1000, lambda written: None)
        if answer is None:
            if small and exhaustive.lowest_price(graph)[0] is not None:
                raise RuntimeError(f"the second solvers differ: {graph}")
            continue
        for found in [answer] + (other_covers(graph, answer, rng, 3) if small else []):
            covers += 1
            batch.add_check(f"{what}, a lowest-price cover", form, encode_answer(found), (0, 0))
            if small and k % 5 or not small and len(found.paths) > 40:
                continue
            for p in range(len(found.paths) + 1):
                batch.add_hand_out(f"{what}, path {p}", form, encode_answer(found), p)
        for _ in range(DAMAGES):
            batch.add_check(f"{what}, damaged", *damaged(rng, graph, answer)[1:])
    batch.run(f"{name}, {len(graphs)} graphs, {covers} covers of the second solvers")

    for k, written in built.items():
        graph, form, what = graphs[k], encode_graph(graphs[k]), f"{name} {k}, as built"
        try:
            _, answer = accept(form, written)
        except Refused as refused:
            count(f"the independent checker refuses with {refused.number} {refused.place}", what, written)
            continue
        count(None if answer.price == answers[k].price else f"price {answer.price}, lowest {answers[k].price}", what, written)
        batch.add_check(what, form, written, (0, 0))
        for p in {0, len(answer.paths) // 2, len(answer.paths) - 1, len(answer.paths)} - {-1}:
            batch.add_hand_out(f"{what}, path {p}", form, written, p)
        batch.add_check(f"{what}, damaged", *damaged(rng, graph, answer)[1:])
    batch.run(f"{name}, {len(built)} built answers")


def main():
    seed, times = int(sys.argv[1]), int(sys.argv[2])
    print(f"seed {seed}, times {times}")
    batch = Batch(sys.argv[3:])
    stored(batch)
    random_bytes(batch, random.Random(f"bytes {seed}"), times)
    for name, size in {**SMALL, **LARGE}.items():
        graphs = make(name, seed, None if name in LISTS else size * times)
        if len(graphs) > size * times:
            graphs = random.Random(f"sample {name} {seed}").sample(graphs, size * times)
        family(batch, name, graphs, random.Random(f"trials {name} {seed}"), name in SMALL)
    print("cases by number:", dict(sorted(numbers.items())))
    wanted = [*range(10), *range(11, 24)]
    count(None if sorted(numbers) == wanted else f"numbers that came up: {sorted(numbers)}", "every number comes up", b"")
    print(f"{passed} passed, {failed} failed")
    sys.exit(failed != 0)


if __name__ == "__main__":
    main()
