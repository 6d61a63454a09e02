"""The programs, run as `rt` runs them, on inputs of every kind; what they print is compared with the independent reference.

    python3 tests/programs/test_programs.py [SEED]

recheck: the listing of the answers that the second solver finds, of damaged pairs, of missing, empty and too long files; and that it
reads each file once, as every program that can open files must.
assemble and answer: refusals as the reference has them; the price is the second solver's, and what `answer` writes is accepted by the
reference; the listing is that of the answer, and `recheck` prints it too.
"""

import glob
import os
import random
import re
import subprocess
import sys
import tempfile

ROOT = os.path.join(os.path.dirname(os.path.abspath(__file__)), "..", "..")
for folder in ("tests", "tests/reference", "tests/solver"):
    sys.path.insert(0, os.path.join(ROOT, folder))

from bound import bound
from cases import (D, D_ANSWER, D_WITH_3, D_WITH_3_ANSWER, D_WITH_READ, L, NO_END, NONE_ASKED, NONE_ASKED_ANSWER, ONE, ONE_ANSWER, X,
                   X_ANSWER)
from damage import damaged
from exists import refusal_of_builder
from forms import LONGEST_ANSWER, Refused, accept, encode_answer, encode_graph, read_graph
from generate import make
from network import solve
from readings import swapped, through_pipes, touched
from tally import end, must
from tally import holds_that as counted

LONGEST_INPUT = 65_536

# Each program that can open files, by the library's `std::fs` or the runtime's `Files`, and the files that it reads.
READS_FILES = {"recheck": ("graph.bin", "cover.bin")}


def holds_that(got, wanted, what):
    counted(what, got, wanted)


def command(program):
    return [os.path.realpath(os.path.join(ROOT, "tools", "run")), program]


def run(program, stdin=b"", files={}):
    """What the program writes to standard output and to standard error, in a folder with these files (None: a folder of that name)."""
    with tempfile.TemporaryDirectory() as room:
        for name, data in files.items():
            if data is None:
                os.mkdir(os.path.join(room, name))
            else:
                with open(os.path.join(room, name), "wb") as f:
                    f.write(data)
        done = subprocess.run(command(program), input=stdin, capture_output=True, cwd=room)
        must(done.returncode == 0, f"{program} ended with {done.returncode}: {done.stderr}")
        return done.stdout, done.stderr


# The listing, from the scope document.


def refused(number, place):
    return f"refused {number} {place}\n".encode()


def listing(graph_bytes, answer_bytes):
    if len(graph_bytes) > LONGEST_INPUT:
        return refused(1, 0)
    if len(answer_bytes) > LONGEST_INPUT:
        number, place = read_graph(graph_bytes)
        return refused(number, place) if number else refused(11, 0)
    try:
        graph, answer = accept(graph_bytes, answer_bytes)
    except Refused as r:
        return refused(r.number, r.place)
    lines = [f"cover {len(answer.paths)} {answer.price}"]
    lines += [" ".join(map(str, (weight, *path))) for weight, path in answer.paths]
    lines += [f"bound {bound(graph, answer.marks)}"]
    return "".join(line + "\n" for line in lines).encode()


def try_recheck(what, graph, answer):
    holds_that(run("recheck", files={"graph.bin": graph, "cover.bin": answer}), (listing(graph, answer), b""), f"recheck, {what}")


def try_assemble(what, graph, price=None):
    """The bytes of a graph form, or any bytes; the price of a lowest-price cover where it is known."""
    number, place = (1, 0) if len(graph) > LONGEST_INPUT else refusal_of_builder(graph, LONGEST_ANSWER)
    listed, said = run("assemble", stdin=graph)
    answer, refusal = run("answer", stdin=graph)
    holds_that(said, b"", f"assemble, {what}, on standard error")
    if number:
        holds_that(listed, refused(number, place), f"assemble, {what}")
        holds_that((answer, refusal), (b"", refused(number, place)), f"answer, {what}")
        return
    holds_that(refusal, b"", f"answer, {what}, on standard error")
    holds_that(listed, listing(graph, answer), f"assemble, {what}, beside the answer form")
    holds_that(listed.split()[:1], [b"cover"], f"assemble, {what}, accepted by the reference")
    holds_that(run("recheck", files={"graph.bin": graph, "cover.bin": answer}), (listed, b""), f"recheck, {what}, of what answer wrote")
    if price is not None:
        holds_that(int(listed.split()[2]), price, f"assemble, {what}, price")


def try_readings(what, program, pair, other):
    """The program lists the pair of forms however its files are given, and reads each of them once."""
    files, others = dict(zip(READS_FILES[program], pair)), dict(zip(READS_FILES[program], other))
    holds_that(through_pipes(command(program), files), listing(*pair), f"{program}, {what}, pipes that give their bytes once")
    holds_that(swapped(command(program), files, others), listing(*pair), f"{program}, {what}, files that are swapped once they are open")
    for name, events in touched(command(program), files).items():
        holds_that(events, ["opened", "read", "closed"] if files[name] else ["opened", "closed"], f"{program}, {what}, what happens to {name}")


def stretched(data, length):
    """The bytes with as many zeros behind them as make that length, and a length word that fits."""
    return length.to_bytes(4, "big") + data[4:] + bytes(length - len(data))


seed = int(sys.argv[1]) if len(sys.argv) > 1 else 1
print(f"seed {seed}")

# The document's listing of D, letter by letter.
wanted = b"cover 2 34\n1 0 1 3\n1 0 2 3\nbound 34\n"
graph, answer = encode_graph(D), encode_answer(D_ANSWER)
holds_that(run("recheck", files={"graph.bin": graph, "cover.bin": answer})[0], wanted, "recheck, D")
holds_that(run("assemble", stdin=graph)[0], wanted, "assemble, D")

# Files that are missing, empty, a folder, too long, just not too long.
for what, g, a in (
        ("the longest graph that is looked at", stretched(graph, LONGEST_INPUT), answer),
        ("a graph that is too long", stretched(graph, LONGEST_INPUT + 1), answer),
        ("two inputs that are too long", stretched(graph, LONGEST_INPUT + 1), stretched(answer, LONGEST_INPUT + 1)),
        ("the longest answer that is looked at", graph, stretched(answer, LONGEST_INPUT)),
        ("an answer that is too long", graph, stretched(answer, LONGEST_INPUT + 1)),
        ("an answer that is far too long", graph, stretched(answer, 3 * LONGEST_INPUT)),
        ("an answer that is too long to a graph that does not read", graph[:-1], stretched(answer, LONGEST_INPUT + 1)),
        ("an empty graph", b"", answer), ("an empty answer", graph, b""), ("a graph of 12 bytes", graph[:12], answer)):
    try_recheck(what, g, a)
holds_that(run("recheck")[0], refused(1, 0), "recheck, no file")
holds_that(run("recheck", files={"cover.bin": answer})[0], refused(1, 0), "recheck, no graph")
holds_that(run("recheck", files={"graph.bin": graph})[0], refused(11, 0), "recheck, no answer")
holds_that(run("recheck", files={"graph.bin": None, "cover.bin": answer})[0], refused(1, 0), "recheck, a folder for a graph")
for what, g in (("nothing", b""), ("12 bytes", graph[:12]), ("a cut graph", graph[:-1]), ("the longest that is looked at", stretched(graph, LONGEST_INPUT)),
                ("a graph that is too long", stretched(graph, LONGEST_INPUT + 1)), ("far too much", bytes(5 * LONGEST_INPUT))):
    try_assemble(what, g)

# Each file is read once, and what is listed comes from the bytes held.
for path in sorted(glob.glob(os.path.join(ROOT, "crates", "*", "src", "*.rt"))):
    with open(path) as f:
        if re.search(r"\b(fs|Files|open_file)\b", f.read()):
            program = path.split(os.sep)[-3]
            holds_that(program in READS_FILES, True, f"{program} can open files: its readings are tried")
pairs = [(encode_graph(g), encode_answer(a)) for g, a in ((D, D_ANSWER), (D_WITH_3, D_WITH_3_ANSWER), (X, X_ANSWER))]
unsound = (graph, encode_answer(D_ANSWER._replace(price=33)))
for program in READS_FILES:
    for what, pair, other in (("D, then X", pairs[0], pairs[2]), ("X, then D", pairs[2], pairs[0]), ("D with demand 3, then D", pairs[1], pairs[0]),
                              ("a wrong price, then D", unsound, pairs[0]), ("D, then a wrong price", pairs[0], unsound),
                              ("D, then nothing", pairs[0], (b"", b"")), ("nothing, then D", (b"", b""), pairs[0]),
                              ("the longest that is looked at, then X", (graph, stretched(answer, LONGEST_INPUT)), pairs[2]),
                              ("an answer that is too long, then X", (graph, stretched(answer, LONGEST_INPUT + 1)), pairs[2])):
        try_readings(what, program, pair, other)

# The document's rows.
for what, g, a in (("D with demand 3", D_WITH_3, D_WITH_3_ANSWER), ("one vertex", ONE, ONE_ANSWER), ("nothing asked", NONE_ASKED, NONE_ASKED_ANSWER)):
    try_recheck(what, encode_graph(g), encode_answer(a))
for what, changed in (("marks 0", D_ANSWER._replace(marks=[(0, 0)] * 4)), ("in-mark 11", D_ANSWER._replace(marks=[(11, 10)] + D_ANSWER.marks[1:])),
                      ("price 33", D_ANSWER._replace(price=33)), ("one path", D_ANSWER._replace(price=16, paths=D_ANSWER.paths[:1]))):
    try_recheck(f"D, {what}", graph, encode_answer(changed))
for what, g, price in (("D", D, 34), ("D with a read", D_WITH_READ, 34), ("D with demand 3", D_WITH_3, 66), ("one vertex", ONE, 10),
                       ("nothing asked", NONE_ASKED, 0), ("no end", NO_END, None), ("L", L, 24), ("X", X, 24)):
    try_assemble(what, encode_graph(g), price)

# Graphs of each family, beside the second solver; damaged pairs.
rng = random.Random(f"programs {seed}")
for family, count in (("small", 12), ("small_reads", 6), ("genes", 12), ("splicing", 6), ("dense", 4), ("wide_demands", 4), ("limits", 4)):
    graphs = make(family, seed, count)
    for k, (g, a) in enumerate(zip(graphs, solve(graphs))):
        form = encode_graph(g)
        try_assemble(f"{family} {k}", form, a and a.price)
        if a:
            try_recheck(f"{family} {k}", form, encode_answer(a))
            how, *pair = damaged(rng, g, a)
            try_recheck(f"{family} {k}, {how}", *pair)

end()
