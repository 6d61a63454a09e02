"""tools/form.py and tools/run against the independent reference: the examples, every vector of the reader, answers that are shown only
where they are accepted, what is said of a wrong text, and which line a refusal speaks of."""

import os
import random
import shutil
import subprocess
import sys
import tempfile

ROOT = os.path.realpath(os.path.join(os.path.dirname(os.path.abspath(__file__)), "..", ".."))
for folder in ("tools", "tests", "tests/reference", "tests/solver", "tests/vectors"):
    sys.path.insert(0, os.path.join(ROOT, folder))

import form
from cases import D, D_ANSWER, D_WITH_3, D_WITH_3_ANSWER, L, L_ANSWER, X, X_ANSWER
from damage import damaged
from exists import refusal_of_builder
from forms import LONGEST_ANSWER, Graph, check, decode_graph, encode_answer, encode_graph, read_graph
from generate import make
from make_reader_vectors import vectors
from readings import swapped, through_pipes, touched
from tally import end, holds_that

TOOL = os.path.join(ROOT, "tools", "form.py")
RUN = os.path.join(ROOT, "tools", "run")


def trouble(work):
    try:
        work()
    except form.Trouble as t:
        return str(t)
    return ""


def run(*words, stdin=b"", files=None, tool=TOOL, keep=None, **settings):
    """Status and what is printed, in a folder with these files; the bytes of the file named keep go last, None where it is not there."""
    with tempfile.TemporaryDirectory() as room:
        for name, data in (files or {}).items():
            with open(os.path.join(room, name), "wb") as f:
                f.write(data)
        done = subprocess.run([tool, *words], input=stdin, capture_output=True, cwd=room, **settings)
        kept = ()
        if keep:
            path = os.path.join(room, keep)
            kept = (open(path, "rb").read() if os.path.exists(path) else None,)
        return (done.returncode, done.stdout, done.stderr.decode(), *kept)


def example(name):
    with open(os.path.join(ROOT, "examples", name)) as f:
        return form.form_of_graph(form.graph_of_text(f.read()))


# The examples, and every form that the reader takes: exactly these, and they come back from their text.
for name, graph in (("D.txt", D), ("L.txt", L), ("X.txt", X)):
    holds_that(name, example(name), encode_graph(graph))
holds_that("LIPI.txt reads", read_graph(example("LIPI.txt")), (0, 0))
for name, data in vectors:
    if read_graph(data) == (0, 0):
        graph = form.graph_of_form(data)
        holds_that(name, Graph(*graph), decode_graph(data))
        holds_that(name, form.form_of_graph(form.graph_of_text(form.text_of_graph(graph))), data)
    else:
        holds_that(name, trouble(lambda: form.graph_of_form(data)) != "", True)

# An answer is shown where it is accepted; where not, the refusal and nothing else.


def shown(graph, answer):
    """What `form.py answer` must end with, by the reference."""
    number, place = (11, 0) if read_graph(graph) == (0, 0) and len(answer) > 65_536 else check(graph, answer)
    if number:
        return 1, f"refused {number} {place}\n".encode(), ""
    n, at = graph[5], 15 + 8 * graph[5]
    lines = [f"price {int.from_bytes(answer[7:15], 'big')}", "", "# WEIGHT, then vertices"]
    for _ in range(int.from_bytes(answer[5:7], "big")):
        path = answer[at + 5:at + 5 + answer[at + 4]]
        lines.append("path " + " ".join(map(str, (int.from_bytes(answer[at:at + 4], "big"), *path))))
        at += 5 + len(path)
    marks = [int.from_bytes(answer[15 + 4 * k:19 + 4 * k], "big", signed=True) for k in range(2 * n)]
    lines += ["", "# VERTEX IN-MARK OUT-MARK"] + [f"mark {v} {marks[2 * v]} {marks[2 * v + 1]}" for v in range(n)]
    return 0, ("\n".join(lines) + "\n").encode(), ""


PAIR = ("answer", "graph.bin", "cover.bin")
d, d_answer = encode_graph(D), encode_answer(D_ANSWER)
wrong_price = encode_answer(D_ANSWER._replace(price=33))
holds_that("D's answer as text", [line for line in run(*PAIR, files={"graph.bin": d, "cover.bin": d_answer})[1].decode().splitlines() if line and line[0] != "#"],
           ["price 34", "path 1 0 1 3", "path 1 0 2 3", "mark 0 10 10", "mark 1 12 -4", "mark 2 13 -5", "mark 3 0 0"])
rng = random.Random("answers shown")
pairs = [(encode_graph(g), encode_answer(a)) for g, a in ((D, D_ANSWER), (D_WITH_3, D_WITH_3_ANSWER), (L, L_ANSWER), (X, X_ANSWER))]
pairs += [(d, wrong_price), (d, b""), (b"", d_answer), (b"", b""), (d[:-1], d_answer), (d, encode_answer(X_ANSWER)), (d, d_answer + bytes(70_000))]
pairs += [damaged(rng, g, a)[1:] for g, a in ((D, D_ANSWER), (L, L_ANSWER), (X, X_ANSWER)) for _ in range(12)]
for graph, answer in pairs:
    files = {"graph.bin": graph, "cover.bin": answer}
    holds_that(f"answer of {graph.hex()} {answer.hex()[:200]}", run(*PAIR, files=files), shown(graph, answer))
files = {"graph.bin": d, "cover.bin": wrong_price, "out.txt": b"kept"}
holds_that("a refused answer leaves the output as it is", run(*PAIR, "out.txt", files=files, keep="out.txt"), (1, b"refused 20 0\n", "", b"kept"))
files["cover.bin"] = d_answer
holds_that("an accepted one goes there", run(*PAIR, "out.txt", files=files, keep="out.txt"), (0, b"", "", shown(d, d_answer)[1]))
holds_that("a form on standard input", run("answer", "graph.bin", "-", stdin=d_answer, files={"graph.bin": d}), shown(d, d_answer))
holds_that("both on standard input", run("answer", "-", "-", stdin=d)[::2], (1, "form.py: graph and answer cannot both be standard input\n"))
holds_that("no such answer", run(*PAIR, files={"graph.bin": d})[::2], (1, "form.py: cover.bin: No such file or directory\n"))

# It reads each file once: what it shows is what was checked.
others = {"graph.bin": encode_graph(X), "cover.bin": encode_answer(X_ANSWER)}
for answer in (d_answer, wrong_price):
    files = {"graph.bin": d, "cover.bin": answer}
    holds_that("answer, pipes that give their bytes once", through_pipes([TOOL, *PAIR], files), shown(d, answer)[1])
    holds_that("answer, files that are swapped once they are open", swapped([TOOL, *PAIR], files, others), shown(d, answer)[1])
    holds_that("answer, what happens to the files", touched([TOOL, *PAIR], files), {name: ["opened", "read", "closed"] for name in files})

# The tools beside programs that are not built, or do not judge.
with tempfile.TemporaryDirectory() as other:
    shutil.copytree(os.path.join(ROOT, "tools"), os.path.join(other, "tools"), ignore=shutil.ignore_patterns("__pycache__"))
    tool, binary = os.path.join(other, "tools", "form.py"), os.path.join(other, "crates", "recheck", "out", "recheck")
    files = {"graph.bin": d, "cover.bin": d_answer}
    holds_that("recheck is not built", run(*PAIR, files=files, tool=tool)[:2], (1, b""))
    os.makedirs(os.path.dirname(binary))
    shutil.copy(os.path.join(ROOT, "crates", "assemble", "out", "assemble"), binary)
    holds_that("a program that reads something else in its place", run(*PAIR, files=files, tool=tool)[:2], (1, b"refused 1 0\n"))
    with open(os.path.join(other, "tools", "run"), "w") as f:
        f.write("#!/bin/sh\necho 'cover 2 34'\n")
    holds_that("a listing that is cut", run(*PAIR, files=files, tool=tool)[:2], (1, b""))
    with open(os.path.join(other, "tools", "run"), "w") as f:
        f.write("#!/bin/sh\nprintf 'cover 1 34\\n2 0 1 3\\nbound 34\\n'\n")
    holds_that("a listing of something else", run(*PAIR, files=files, tool=tool)[:2], (1, b""))

# What is said of a wrong text: file and line.
TWO = "vertex start 1\nvertex end 1\n"
LONG = "9" * 5000
for text, words in (
        ("", "t: there is no vertex"), ("vertex", "t, line 1: write 'vertex"), ("vertex both", "t, line 1"), ("vertex first 1", "t, line 1: the kind"),
        ("vertex both -1", "t, line 1: the demand is '-1'"), ("vertex both 1000001", "at most 1000000"), ("vertex both 0x1", "not a whole number"),
        ("vertex both \u0661", "not a whole number"), ("opening x", "t, line 1: the opening price"),
        ("opening 1000000001", "at most 1000000000"), ("opening 1\nopening 1", "t, line 2: the opening price stands on line 1"),
        (TWO + "arc 0 1 1", "t, line 3: write 'arc"), (TWO + "arc 1 1 1 1", "t, line 3: an arc goes from a lower"),
        (TWO + "arc 0 2 1 1", "t, line 3: there is no vertex 2"), (TWO + "arc 0 1 1 1\n\narc 0 1 2 2", "t, line 5: the arc from 0 to 1 stands on line 3"),
        (TWO + "arc 0 64 1 1", "t, line 3: a vertex is '64', and may be at most 63"),
        (TWO + "arc 0 1 1000001 1", "t, line 3: the cost"), (TWO + "read 0 1", "t, line 3: the read goes from 0 to 1"),
        (TWO + "read 0", "t, line 3: a read has 2 to 16"), (TWO + "read " + "0 " * 17, "t, line 3: a read has 2 to 16"),
        (TWO + "edge 0 1", "t, line 3: 'edge' is not known"), ("vertex both 1\n" * 65, "t, line 65: more than 64"),
        (TWO + "arc 0 1 0 0\n" + "read 0 1\n" * 17, "t, line 20: more than 16"),
        (f"opening {LONG}", "(5000 characters), and may be at most 1000000000"), (f"vertex both {LONG}", "(5000 characters), and may be at most"),
        (TWO + f"arc {LONG} 1 0 0", "(5000 characters)"), (TWO + f"arc 0 1 {LONG} 0", "(5000 characters)"), (TWO + f"read 0 {LONG}", "(5000 characters)")):
    holds_that(repr(text[:40]), words in trouble(lambda: form.graph_of_text(text, "t")), True)
holds_that("zeros in front", form.graph_of_text("vertex both " + "0" * 5000 + "7"), (0, [(3, 7)], [], []))
holds_that("a text from another system", form.graph_of_text("\ufeffvertex both 7\r\n".encode().decode("utf-8-sig")), (0, [(3, 7)], [], []))
holds_that("a wrong text, by its name", run("graph", "my.txt", "graph.bin", files={"my.txt": b"vertex both 1\nvertex"}, keep="graph.bin"),
           (1, b"", "form.py: my.txt, line 2: write 'vertex KIND DEMAND'\n", None))
holds_that("a wrong text on standard input", run("graph", "-", stdin=b"vertex")[2], "form.py: standard input, line 1: write 'vertex KIND DEMAND'\n")
holds_that("a form for a text", "this is no text" in run("graph", "graph.bin", files={"graph.bin": b"\xff\xfe"})[2], True)
holds_that("a wrong form, by its name", run("text", "g.bin", files={"g.bin": d[:-1]})[2].startswith("form.py: g.bin: these 72 bytes"), True)
holds_that("a wrong record, by its name", run("text", "g.bin", files={"g.bin": d[:13] + b"\4" + d[14:]})[2], "form.py: g.bin, byte 13: a flag is 4, and may be 0 to 3\n")
holds_that("a wrong call", [run(*words)[0] for words in (("graph",), ("answer", "graph.bin"), ("explain", "my.txt", "8"), ("edge",))], [2, 2, 2, 2])
holds_that("help", run("--help")[0::2], (0, ""))

# A graph that has no start or no end is warned of, and made all the same.
for text, kinds in (("vertex - 1", ["a start", "an end"]), ("vertex start 1", ["an end"]), ("vertex end 0", ["a start"]), ("vertex both 1", []), (TWO, [])):
    status, out, said = run("graph", "my.txt", files={"my.txt": text.encode()})
    holds_that(f"{text!r} is made", (status, read_graph(out)), (0, (0, 0)))
    holds_that(f"{text!r} is warned of", [line.split(" is ")[1].split(",")[0] for line in said.splitlines()], kinds)
    holds_that(f"{text!r}: file and warning are named", all(line.startswith("form.py: my.txt: warning: ") for line in said.splitlines()), True)


# Which line a refusal speaks of: each thing is told by a comment of its own, and the arcs stand in another order than the form's.


def marked_text(graph, rng):
    arcs = [f"arc {tail} {head} {cost} {demand} # arc {k}" for k, (tail, head, cost, demand) in enumerate(graph.arcs)]
    rng.shuffle(arcs)
    lines = [f"vertex {form.NAMES[flags]} {demand} # vertex {v}" for v, (flags, demand) in enumerate(graph.vertices)]
    reads = ["read " + " ".join(map(str, read)) + f" # read {k}" for k, read in enumerate(graph.reads)]
    return "\n".join(["# a gene", "", f"opening {graph.opening} # opening", *arcs, "", *lines, *reads])


def said_of(text, number, place, files=None, *more):
    status, out, said = run("explain", "my.txt", str(number), str(place), *more, files={"my.txt": text.encode(), **(files or {})})
    return out.decode().splitlines()[-1] if status == 0 else said


rng = random.Random("lines")
for graph in (L, *make("splicing", 5, 3)):
    text = marked_text(graph, rng)
    names = [f"{kind} {k}" for kind, things in (("vertex", graph.vertices), ("arc", graph.arcs), ("read", graph.reads)) for k in range(len(things))]
    lengths = [5] * len(graph.vertices) + [10] * len(graph.arcs) + [1 + len(read) for read in graph.reads]
    source = text.split("\n")
    explained, offset = form.parsed(text, "my.txt"), 13
    for item, name in enumerate(names):
        line = next(k for k, content in enumerate(source, 1) if content.endswith(f"# {name}"))
        for number, place in ((8, item), (19, item), (21, item), (4, offset), (5, offset), (6, offset), (7, offset)):
            holds_that(f"{number} {place}", form.explained(explained, text, number, place, None).splitlines()[-1], f"my.txt, line {line}: {source[line - 1]}")
        offset += lengths[item]
    holds_that("no such item", "there is no item" in trouble(lambda: form.explained(explained, text, 8, len(names), None)), True)
    holds_that("no such record", "begins no record" in trouble(lambda: form.explained(explained, text, 4, 14, None)), True)
    holds_that("the opening price", said_of(text, 4, 9), f"my.txt, line 3: {source[2]}")
    holds_that("the end of the graph form", said_of(text, 5, offset), "the end of the last record")
    for v in range(len(graph.vertices)):
        holds_that(f"the marks of {v}", [form.explained(explained, text, 14, 15 + 8 * v + part, None).split("\n")[1].split("# ")[1] for part in (0, 4)], [f"vertex {v}"] * 2)
    holds_that("no such mark", ["no mark" in trouble(lambda: form.explained(explained, text, 14, place, None)) for place in (14, 16, 15 + 8 * len(graph.vertices))], [True] * 3)

# The refusals that the builder gives: the line of the first item that the reference names.
for k, graph in enumerate(make("small", 7, 60)):
    number, place = refusal_of_builder(encode_graph(graph), LONGEST_ANSWER)
    if number == 8:
        text = marked_text(graph, rng)
        status, printed, _ = run("assemble", stdin=form.form_of_graph(form.graph_of_text(text)), tool=RUN)
        holds_that(f"small {k} is refused", printed, f"refused 8 {place}\n".encode())
        words = printed.decode().split()
        line = run("explain", "my.txt", *words, files={"my.txt": text.encode()})[1].decode().splitlines()[-1]
        names = [f"vertex {v}" for v in range(len(graph.vertices))] + [f"arc {a}" for a in range(len(graph.arcs))] + [f"read {r}" for r in range(len(graph.reads))]
        holds_that(f"small {k}, the line", line.endswith(f"# {names[place]}"), True)

# Paths of an answer are counted, not shown; the other numbers have a meaning and no line.
text = form.text_of_graph(form.graph_of_form(d))
for number in (15, 16, 17, 18):
    for place, wanted in ((47, "path 0 of the answer, counted from 0"), (55, "path 1 of the answer, counted from 0"), (63, "the end of the answer"),
                          (50, "form.py: cover.bin: byte 50 begins no path record\n")):
        holds_that(f"{number} at {place}", said_of(text, number, place, {"cover.bin": d_answer}, "cover.bin"), wanted)
    holds_that(f"{number} without the answer", said_of(text, number, 47), "byte 47 of the answer; name its file to see which path")
for number in (1, 2, 3, 9, 11, 12, 13, 20, 22, 23, 29):
    holds_that(f"{number} has a meaning", said_of(text, number, 0).startswith(f"{number}: "), True)
for number in (0, 10, 24, 999):
    holds_that(f"{number} is no refusal", said_of(text, number, 0), f"form.py: there is no refusal {number}\n")
holds_that("a number of 5000 digits", "whole numbers" in said_of(text, LONG, 0), True)

# tools/run by links, and without starting `rt`.
with tempfile.TemporaryDirectory() as other:
    wanted = (0, b"cover 2 34\n1 0 1 3\n1 0 2 3\nbound 34\n", "")
    os.symlink(RUN, os.path.join(other, "link"))
    os.symlink("link", os.path.join(other, "second"))
    os.symlink(os.path.join(ROOT, "tools"), os.path.join(other, "tools"))
    for name in ("link", "second", "tools/run"):
        holds_that(f"tools/run as {name}", run("assemble", stdin=d, tool=os.path.join(other, name)), wanted)
    holds_that("form.py by a link", run(*PAIR, files={"graph.bin": d, "cover.bin": d_answer}, tool=os.path.join(other, "tools", "form.py")), shown(d, d_answer))
    os.makedirs(os.path.join(other, "kit", "bin"))
    with open(os.path.join(other, "kit", "bin", "rt"), "w") as f:
        f.write(f"#!/bin/sh\ntouch '{other}/started'\n")
    os.chmod(os.path.join(other, "kit", "bin", "rt"), 0o755)
    path = os.path.join(other, "kit", "bin") + os.pathsep + os.environ["PATH"]
    holds_that("tools/run beside another rt", run("assemble", stdin=d, tool=RUN, env={**os.environ, "PATH": path}), wanted)
    holds_that("that rt is not started", os.path.exists(os.path.join(other, "started")), False)
    holds_that("a program that is not there", run("nothing", tool=RUN)[:2], (2, b""))

end()
