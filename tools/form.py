#!/usr/bin/env python3
"""Turns a readable description of a splicing graph into a graph form and back, shows an answer form, and explains a refusal.

    form.py graph   GRAPH.txt  graph.bin             text to graph form
    form.py text    graph.bin  [GRAPH.txt]           graph form to text
    form.py answer  graph.bin  cover.bin [OUT.txt]   answer form to text, if `recheck` accepts these very bytes; if not, its refusal alone
    form.py explain GRAPH.txt  NUMBER PLACE [cover.bin]
                                                     what a refusal means, and the line of the text that it speaks of; cover.bin only
                                                     where the place is a path of the answer (15 to 18)

A file named - is standard input or standard output; an output that is left out is standard output. The status is 0, or 1 where an input
is refused or wrong, or 2 where the command is not one of these.

The text of a graph has one thing to a line. What follows a # is a comment.

    opening PRICE                    price of opening one more copy of a path, 0 to 1000000000 (0 where the line is missing)
    vertex KIND DEMAND               a segment; KIND is start, end, both or -; DEMAND is how many copies must pass, 0 to 1000000
    arc TAIL HEAD COST DEMAND        a link from a lower segment to a higher one; COST and DEMAND are 0 to 1000000
    read VERTEX VERTEX ..            a long read: 2 to 16 segments that some path must hold one right after the other

Vertices are numbered from 0 in the order of their lines; there are 1 to 64. Arcs may stand in any order; there are at most 256,
and none twice. There are at most 16 reads. The form has the arcs in ascending order, and a refusal counts them so: explain finds the line.

The text of an answer has the price, the paths (weight, then vertices) and each vertex's marks.
"""

import os
import subprocess
import sys
import tempfile

LIMITS = {"opening": 1_000_000_000, "cost": 1_000_000, "demand": 1_000_000, "vertices": 64, "arcs": 256, "reads": 16, "read": 16}
KINDS = {"-": 0, "start": 1, "end": 2, "both": 3}
NAMES = {flags: kind for kind, flags in KINDS.items()}
HEADER, VERTEX, ARC = 13, 5, 10  # bytes of the graph form's header and records
ANSWER_HEADER, MARKS = 15, 8  # bytes of the answer form's header, and of a vertex's two marks


class Trouble(Exception):
    """Something in an input that a user can put right; its text says where."""


# Text of a graph.


def shown(word):
    return f"'{word}'" if len(word) <= 30 else f"'{word[:30]}..' ({len(word)} characters)"


class GraphText:
    """The text of a graph, taken line by line. Each vertex, arc and read is kept with the number of its line."""

    def __init__(self, name):
        self.name = name
        self.opening, self.opening_line = 0, None
        self.vertices, self.arcs, self.reads = [], [], []

    def trouble(self, line, why):
        return Trouble(f"{self.name}, line {line}: {why}")

    def number(self, line, word, what, most):
        if not (word.isascii() and word.isdigit()):
            raise self.trouble(line, f"{what} is {shown(word)}, not a whole number")
        digits = word.lstrip("0") or "0"
        if len(digits) > len(str(most)) or int(digits) > most:
            raise self.trouble(line, f"{what} is {shown(word)}, and may be at most {most}")
        return int(digits)

    def keep(self, line, things, what, thing):
        if len(things) == LIMITS[what]:
            raise self.trouble(line, f"more than {LIMITS[what]} {what}")
        things.append((*thing, line))

    def take_opening(self, line, words):
        if len(words) != 1:
            raise self.trouble(line, "write 'opening PRICE'")
        if self.opening_line is not None:
            raise self.trouble(line, f"the opening price stands on line {self.opening_line} already")
        self.opening, self.opening_line = self.number(line, words[0], "the opening price", LIMITS["opening"]), line

    def take_vertex(self, line, words):
        if len(words) != 2:
            raise self.trouble(line, "write 'vertex KIND DEMAND'")
        if words[0] not in KINDS:
            raise self.trouble(line, f"the kind of a vertex is start, end, both or -, not {shown(words[0])}")
        self.keep(line, self.vertices, "vertices", (KINDS[words[0]], self.number(line, words[1], "the demand", LIMITS["demand"])))

    def take_arc(self, line, words):
        if len(words) != 4:
            raise self.trouble(line, "write 'arc TAIL HEAD COST DEMAND'")
        tail, head = (self.number(line, word, "a vertex", LIMITS["vertices"] - 1) for word in words[:2])
        cost, demand = self.number(line, words[2], "the cost", LIMITS["cost"]), self.number(line, words[3], "the demand", LIMITS["demand"])
        if not tail < head:
            raise self.trouble(line, f"an arc goes from a lower vertex to a higher one, not from {tail} to {head}")
        self.keep(line, self.arcs, "arcs", (tail, head, cost, demand))

    def take_read(self, line, words):
        if not 2 <= len(words) <= LIMITS["read"]:
            raise self.trouble(line, f"a read has 2 to {LIMITS['read']} vertices, not {len(words)}")
        self.keep(line, self.reads, "reads", (tuple(self.number(line, word, "a vertex", LIMITS["vertices"] - 1) for word in words),))

    def finish(self):
        """Holds what the lines say against each other, and puts the arcs into the form's order."""
        if not self.vertices:
            raise Trouble(f"{self.name}: there is no vertex")
        where = {}
        for tail, head, _, _, line in self.arcs:
            if head >= len(self.vertices):
                raise self.trouble(line, f"there is no vertex {head}; the last is {len(self.vertices) - 1}")
            if (tail, head) in where:
                raise self.trouble(line, f"the arc from {tail} to {head} stands on line {where[tail, head]} already")
            where[tail, head] = line
        for read, line in self.reads:
            for tail, head in zip(read, read[1:]):
                if (tail, head) not in where:
                    raise self.trouble(line, f"the read goes from {tail} to {head}, and there is no such arc")
        self.arcs.sort()

    def graph(self):
        return self.opening, [v[:2] for v in self.vertices], [arc[:4] for arc in self.arcs], [read for read, _ in self.reads]

    def items(self):
        """The line of each item, in the order in which refusals count them: vertices, arcs as the form has them, reads."""
        return [thing[-1] for thing in self.vertices + self.arcs + self.reads]


def parsed(text, name):
    graph = GraphText(name)
    takes = {"opening": graph.take_opening, "vertex": graph.take_vertex, "arc": graph.take_arc, "read": graph.take_read}
    for line, content in enumerate(text.split("\n"), 1):
        words = content.split("#", 1)[0].split()
        if not words:
            continue
        if words[0] not in takes:
            raise graph.trouble(line, f"{shown(words[0])} is not known; a line begins with opening, vertex, arc or read")
        takes[words[0]](line, words[1:])
    graph.finish()
    return graph


def graph_of_text(text, name="the text"):
    return parsed(text, name).graph()


def warnings(graph, name):
    """What is no mistake, and leaves no path."""
    for kind, flag in (("start", 1), ("end", 2)):
        if not any(flags & flag for flags, _ in graph[1]):
            yield f"{name}: warning: no vertex is {'a start' if flag == 1 else 'an end'}, so there is no path; whatever asks for something is refused (8)"


def text_of_graph(graph):
    opening, vertices, arcs, reads = graph
    lines = [f"opening {opening}", "", "# KIND DEMAND, vertices from 0"]
    lines += [f"vertex {NAMES[flags]} {demand}  # {v}" for v, (flags, demand) in enumerate(vertices)]
    if arcs:
        lines += ["", "# TAIL HEAD COST DEMAND"] + [f"arc {tail} {head} {cost} {demand}" for tail, head, cost, demand in arcs]
    if reads:
        lines += [""] + ["read " + " ".join(map(str, read)) for read in reads]
    return "\n".join(lines) + "\n"


# The graph form.


def form_of_graph(graph):
    opening, vertices, arcs, reads = graph
    body = bytes([1, len(vertices)]) + len(arcs).to_bytes(2, "big") + bytes([len(reads)]) + opening.to_bytes(4, "big")
    body += b"".join(bytes([flags]) + demand.to_bytes(4, "big") for flags, demand in vertices)
    body += b"".join(bytes([tail, head]) + cost.to_bytes(4, "big") + demand.to_bytes(4, "big") for tail, head, cost, demand in arcs)
    body += b"".join(bytes([len(read)]) + bytes(read) for read in reads)
    return (len(body) + 4).to_bytes(4, "big") + body


class Bytes:
    """A form that is read from front to back."""

    def __init__(self, data, name):
        self.data, self.name, self.at = data, name, 0
        if len(data) < 4 or int.from_bytes(data[:4], "big") != len(data):
            raise Trouble(f"{name}: these {len(data)} bytes do not begin with their own length; is this another kind of file?")
        self.at = 4

    def trouble(self, why, at=None):
        return Trouble(f"{self.name}, byte {self.at if at is None else at}: {why}")

    def take(self, width):
        if self.at + width > len(self.data):
            raise self.trouble("the form ends too early")
        self.at += width
        return self.data[self.at - width:self.at]

    def number(self, width, what, least=0, most=None):
        at = self.at
        value = int.from_bytes(self.take(width), "big")
        if value < least or (most is not None and value > most):
            raise self.trouble(f"{what} is {value}, and may be {least} to {most}", at)
        return value

    def end(self):
        if self.at != len(self.data):
            raise self.trouble(f"{len(self.data) - self.at} bytes are left over")


def graph_of_form(data, name="the graph form"):
    form = Bytes(data, name)
    form.number(1, "the version", 1, 1)
    n = form.number(1, "the number of vertices", 1, LIMITS["vertices"])
    arc_count = form.number(2, "the number of arcs", 0, LIMITS["arcs"])
    read_count = form.number(1, "the number of reads", 0, LIMITS["reads"])
    opening = form.number(4, "the opening price", 0, LIMITS["opening"])
    vertices = [(form.number(1, "a flag", 0, 3), form.number(4, "a demand", 0, LIMITS["demand"])) for _ in range(n)]
    arcs = []
    for _ in range(arc_count):
        at = form.at
        tail, head = form.number(1, "a tail"), form.number(1, "a head")
        cost, demand = form.number(4, "a cost", 0, LIMITS["cost"]), form.number(4, "a demand", 0, LIMITS["demand"])
        if not tail < head < n:
            raise form.trouble(f"an arc from {tail} to {head} among {n} vertices", at)
        if arcs and not arcs[-1][:2] < (tail, head):
            raise form.trouble(f"the arc from {tail} to {head} does not come after the one from {arcs[-1][0]} to {arcs[-1][1]}", at)
        arcs.append((tail, head, cost, demand))
    known = {arc[:2] for arc in arcs}
    reads = []
    for _ in range(read_count):
        at = form.at
        read = tuple(form.take(form.number(1, "the length of a read", 2, LIMITS["read"])))
        for pair in zip(read, read[1:]):
            if pair not in known:
                raise form.trouble(f"a read goes from {pair[0]} to {pair[1]}, and there is no such arc", at)
        reads.append(read)
    form.end()
    return opening, vertices, arcs, reads


# The answer form. It is shown only where `recheck` accepts the bytes that are shown.


def rechecked(graph, answer):
    """The lines that `recheck` prints of these bytes."""
    with tempfile.TemporaryDirectory() as room:
        for name, data in (("graph.bin", graph), ("cover.bin", answer)):
            write_file(os.path.join(room, name), data)
        run = os.path.join(os.path.dirname(os.path.realpath(__file__)), "run")
        done = subprocess.run([run, "recheck"], cwd=room, stdin=subprocess.DEVNULL, capture_output=True, text=True)
    lines = done.stdout.splitlines()
    if done.returncode != 0 or not lines or lines[-1].split()[0] not in ("bound", "refused"):
        raise Trouble(f"recheck did not judge the answer: {done.stderr.strip() or done.stdout.strip() or 'it printed nothing'}")
    return lines


def answer_of_form(n, data, name):
    form = Bytes(data, name)
    form.number(1, "the version", 1, 1)
    path_count = form.number(2, "the number of paths")
    price = form.number(8, "the price")
    marks = [int.from_bytes(form.take(4), "big", signed=True) for _ in range(2 * n)]
    paths = [(form.number(4, "a weight"), form.take(form.number(1, "the length of a path"))) for _ in range(path_count)]
    form.end()
    return price, marks, paths


def text_of_answer(graph, answer, name):
    """The text and True, or the refusal and False."""
    lines = rechecked(graph, answer)
    if lines[0].split()[0] != "cover":
        return "\n".join(lines) + "\n", False
    n = graph[5]
    price, marks, paths = answer_of_form(n, answer, name)
    listed = [" ".join(map(str, (weight, *path))) for weight, path in paths]
    if lines != [f"cover {len(paths)} {price}", *listed, f"bound {price}"]:
        raise Trouble(f"{name}: recheck lists something else than these bytes hold")
    text = [f"price {price}", "", "# WEIGHT, then vertices"] + ["path " + line for line in listed]
    text += ["", "# VERTEX IN-MARK OUT-MARK"] + [f"mark {v} {marks[2 * v]} {marks[2 * v + 1]}" for v in range(n)]
    return "\n".join(text) + "\n", True


# What a refusal speaks of.

# For each number what it means, and what its place is.
MEANINGS = {
    1: ("the graph is shorter than 13 bytes, its length word differs from its length, or it is longer than a program reads", None),
    2: ("the graph's version is not 1", None),
    3: ("a count of the graph is out of range: vertices 1 to 64 (place 5), arcs 0 to 256 (6), reads 0 to 16 (8)", None),
    4: ("the opening price, or a flag, demand or cost of this record, is out of range", "graph"),
    5: ("this record runs past the graph's end, or bytes remain behind the last", "graph"),
    6: ("this arc does not go from a lower to a higher vertex of the graph, or does not come after the one before it", "graph"),
    7: ("this read has not 2 to 16 vertices, or holds a vertex or a pair that the graph has not", "graph"),
    8: ("no cover exists: this asks for something and lies on no path from a start to an end", "item"),
    9: ("the output lent to the builder is shorter than 32,543 bytes", None),
    11: ("the answer is shorter than its marks need, its length word differs from its length, or it is longer than a program reads", None),
    12: ("the answer's version is not 1", None),
    13: ("the answer has more than 464 paths", None),
    14: ("this mark is out of range", "mark"),
    15: ("this path record runs past the answer's end, or bytes remain behind the last", "path"),
    16: ("this is no path of the graph: its length, a vertex, a pair without an arc, its first or last vertex", "path"),
    17: ("the weight of this path is 0, or the weights up to it total more than 320,000,016", "path"),
    18: ("this path does not come after the one before it", "path"),
    19: ("the answer does not meet the demand of this vertex or arc, or does not hold this read", "item"),
    20: ("the stated price is not the price of the paths", None),
    21: ("a slack of this vertex or arc is below 0: the marks prove nothing", "item"),
    22: ("the bound differs from the price: the cover is not shown to be of lowest price", None),
    23: ("there is no path with the number asked for", None),
    29: ("the output lent to a listing is shorter than its text", None),
    30: ("base counts: bases, lengths and demands are not three lists of one length, 1 to 256", None),
    32: ("base counts: the exon whose number is the place has a length that is not 1 to 1,000,000", None),
    33: ("base counts: the whole coverage of the exon whose number is the place is above 1,000,000", None),
}


def place_in_graph(graph, place):
    """The line that a byte offset of the graph form speaks of."""
    records, at = {9: graph.opening_line}, HEADER
    for things, length in ((graph.vertices, lambda thing: VERTEX), (graph.arcs, lambda thing: ARC), (graph.reads, lambda thing: 1 + len(thing[0]))):
        for thing in things:
            records[at] = thing[-1]
            at += length(thing)
    if place == at:
        return "the end of the last record"
    if place not in records:
        raise Trouble(f"{graph.name}: in the form of this text byte {place} begins no record; the refusal is another graph's")
    return records[place] or "the opening price, for which there is no line"


def place_in_answer(graph, place, data, name):
    """Which path record of an answer form begins at the byte offset."""
    at, k = ANSWER_HEADER + MARKS * len(graph.vertices), 0
    while at < place and at + 4 < len(data):
        at, k = at + 5 + data[at + 4], k + 1
    if at != place:
        raise Trouble(f"{name}: byte {place} begins no path record")
    return f"path {k} of the answer, counted from 0" if at < len(data) else "the end of the answer"


def explained(graph, text, number, place, answer):
    """What the refusal means, and what it speaks of; answer is the name of the answer form, or None."""
    if number not in MEANINGS:
        raise Trouble(f"there is no refusal {number}")
    meaning, kind = MEANINGS[number]
    items = graph.items()
    where = None
    if kind == "graph":
        where = place_in_graph(graph, place)
    elif kind == "item":
        if place >= len(items):
            raise Trouble(f"{graph.name}: there is no item {place}, only {len(items)}; the refusal is another graph's")
        where = items[place]
    elif kind == "mark":
        v, part = divmod(place - ANSWER_HEADER, MARKS)
        if not 0 <= v < len(graph.vertices) or part not in (0, 4):
            raise Trouble(f"{graph.name}: byte {place} is no mark of an answer to this graph")
        meaning, where = meaning + f", the {'out' if part else 'in'}-mark of this vertex", graph.vertices[v][-1]
    elif kind == "path":
        where = place_in_answer(graph, place, read_file(answer), answer) if answer else f"byte {place} of the answer; name its file to see which path"
    if isinstance(where, int):
        where = f"{graph.name}, line {where}: {text.split(chr(10))[where - 1].strip()}"
    return f"{number}: {meaning}\n" + (f"{where}\n" if where else "")


# The command.


def read_file(name):
    try:
        if name == "-":
            return sys.stdin.buffer.read()
        with open(name, "rb") as f:
            return f.read()
    except OSError as e:
        raise Trouble(f"{name}: {e.strerror}")


def write_file(name, data):
    try:
        if name == "-":
            sys.stdout.buffer.write(data)
            sys.stdout.buffer.flush()
        else:
            with open(name, "wb") as f:
                f.write(data)
    except OSError as e:
        raise Trouble(f"{'standard output' if name == '-' else name}: {e.strerror}")


def titled(name):
    return "standard input" if name == "-" else name


def text_in(name):
    try:
        return read_file(name).decode("utf-8-sig")
    except UnicodeDecodeError:
        raise Trouble(f"{titled(name)}: this is no text; to turn a graph form into text write 'form.py text {name}'")


def make_graph(source, out="-"):
    graph = graph_of_text(text_in(source), titled(source))
    for warning in warnings(graph, titled(source)):
        print(f"form.py: {warning}", file=sys.stderr)
    write_file(out, form_of_graph(graph))
    return 0


def make_text(source, out="-"):
    write_file(out, text_of_graph(graph_of_form(read_file(source), titled(source))).encode())
    return 0


def show_answer(graph, answer, out="-"):
    if graph == answer == "-":
        raise Trouble("graph and answer cannot both be standard input")
    text, accepted = text_of_answer(read_file(graph), read_file(answer), titled(answer))
    write_file(out if accepted else "-", text.encode())
    return 0 if accepted else 1


def explain(source, *words):
    numbers, answer = words[:2], words[2] if len(words) > 2 else None
    if not all(word.isascii() and word.isdigit() and len(word) <= 18 for word in numbers):
        raise Trouble("NUMBER and PLACE are whole numbers, as they stand behind 'refused'")
    text = text_in(source)
    write_file("-", explained(parsed(text, titled(source)), text, *map(int, numbers), answer).encode())
    return 0


# For each command how many words it needs, and how many it takes.
COMMANDS = {"graph": (make_graph, 1, 2), "text": (make_text, 1, 2), "answer": (show_answer, 2, 3), "explain": (explain, 3, 4)}


def main(words):
    if not words or words[0] in ("-h", "--help", "help"):
        print(__doc__.strip())
        return 0
    command, words = words[0], words[1:]
    if command == "explain" and words[1:2] == ["refused"]:  # a whole line of a program's output
        del words[1]
    if command not in COMMANDS or not COMMANDS[command][1] <= len(words) <= COMMANDS[command][2]:
        print("form.py: this is not one of the ways to call it; see form.py --help", file=sys.stderr)
        return 2
    try:
        return COMMANDS[command][0](*words)
    except Trouble as trouble:
        print(f"form.py: {trouble}", file=sys.stderr)
        return 1


if __name__ == "__main__":
    sys.exit(main(sys.argv[1:]))
