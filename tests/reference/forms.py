"""The two forms of version 1, written from the scope document alone: encoding, reading, checking, handing out.

It shares no code with the library. Each rule stands where the document's order puts it, and is checked in the plainest way
there is; nothing here is meant to be fast.

    read_graph(data)              -> (number, place)          numbers 1 to 7
    check(graph, answer)          -> (number, place)          numbers 1 to 7 and 11 to 22
    hand_out(graph, answer, k)    -> (number, place, part)    as check, then 23; part is empty where the number is not 0
    decode_graph(data)            -> Graph                    of a form that reads
    decode_answer(data, n)        -> Answer                   of a form that reads against n vertices
    encode_graph, encode_answer   the forms of a Graph and of an Answer; numbers out of range are written as they are
"""

from collections import namedtuple

from bound import bound, first_slack_below_0
from prepare import holds

Graph = namedtuple("Graph", "opening vertices arcs reads")
# vertices: (flags, demand); arcs: (tail, head, cost, demand); reads: tuples of vertices
Answer = namedtuple("Answer", "price marks paths")
# marks: (in-mark, out-mark); paths: (weight, tuple of vertices)

START, END = 1, 2

MAX_VERTICES = 64
MAX_ARCS = 256
MAX_READS = 16
MAX_OPENING = 1_000_000_000
MAX_COST = 1_000_000
MAX_DEMAND = 1_000_000
MAX_PATHS = 64 + 256 + 64 + 64 + 16
MAX_WEIGHT = 320_000_016
MAX_MARK = 2_000_000_000
LONGEST_GRAPH = 3_165
LONGEST_ANSWER = 32_543


class Refused(Exception):
    """An input that is turned down, with its number and its place."""

    def __init__(self, number, place):
        super().__init__(number, place)
        self.number = number
        self.place = place


def number_at(data, at, width):
    return int.from_bytes(data[at:at + width], "big")


def signed_at(data, at, width):
    return int.from_bytes(data[at:at + width], "big", signed=True)


def is_start(graph, v):
    return graph.vertices[v][0] in (1, 3)


def is_end(graph, v):
    return graph.vertices[v][0] in (2, 3)


def pairs(vertices):
    return list(zip(vertices, vertices[1:]))


# The graph form.


def encode_graph(graph):
    body = bytearray([1, len(graph.vertices)])
    body += len(graph.arcs).to_bytes(2, "big")
    body += len(graph.reads).to_bytes(1, "big")
    body += graph.opening.to_bytes(4, "big")
    for flags, demand in graph.vertices:
        body += bytes([flags]) + demand.to_bytes(4, "big")
    for tail, head, cost, demand in graph.arcs:
        body += bytes([tail, head]) + cost.to_bytes(4, "big") + demand.to_bytes(4, "big")
    for read in graph.reads:
        body += bytes([len(read)]) + bytes(read)
    return (4 + len(body)).to_bytes(4, "big") + bytes(body)


def decode_graph(data):
    """The graph of a form; raises Refused where the form is turned down."""
    # Headers by rising number.
    if len(data) < 13 or number_at(data, 0, 4) != len(data):
        raise Refused(1, 0)
    if data[4] != 1:
        raise Refused(2, 4)
    n, arc_count, read_count = data[5], number_at(data, 6, 2), data[8]
    if not 1 <= n <= MAX_VERTICES:
        raise Refused(3, 5)
    if arc_count > MAX_ARCS:
        raise Refused(3, 6)
    if read_count > MAX_READS:
        raise Refused(3, 8)
    opening = number_at(data, 9, 4)
    if opening > MAX_OPENING:
        raise Refused(4, 9)

    # Then records front to back.
    at = 13
    vertices = []
    for _ in range(n):
        if at + 5 > len(data):
            raise Refused(5, at)
        flags, demand = data[at], number_at(data, at + 1, 4)
        if flags > 3 or demand > MAX_DEMAND:
            raise Refused(4, at)
        vertices.append((flags, demand))
        at += 5

    arcs = []
    for _ in range(arc_count):
        if at + 10 > len(data):
            raise Refused(5, at)
        tail, head = data[at], data[at + 1]
        cost, demand = number_at(data, at + 2, 4), number_at(data, at + 6, 4)
        if cost > MAX_COST or demand > MAX_DEMAND:
            raise Refused(4, at)
        if not tail < head < n:
            raise Refused(6, at)
        if arcs and not arcs[-1][:2] < (tail, head):
            raise Refused(6, at)
        arcs.append((tail, head, cost, demand))
        at += 10

    known = {(tail, head) for tail, head, _, _ in arcs}
    reads = []
    for _ in range(read_count):
        if at + 1 > len(data):
            raise Refused(5, at)
        count = data[at]
        if not 2 <= count <= 16:
            raise Refused(7, at)
        if at + 1 + count > len(data):
            raise Refused(5, at)
        read = tuple(data[at + 1:at + 1 + count])
        if any(v >= n for v in read) or any(p not in known for p in pairs(read)):
            raise Refused(7, at)
        reads.append(read)
        at += 1 + count

    # Remaining bytes come last.
    if at != len(data):
        raise Refused(5, at)
    return Graph(opening, vertices, arcs, reads)


def read_graph(data):
    try:
        decode_graph(data)
    except Refused as r:
        return r.number, r.place
    return 0, 0


# The answer form.


def encode_answer(answer):
    body = bytearray([1])
    body += len(answer.paths).to_bytes(2, "big")
    body += answer.price.to_bytes(8, "big")
    for in_mark, out_mark in answer.marks:
        body += in_mark.to_bytes(4, "big", signed=True) + out_mark.to_bytes(4, "big", signed=True)
    for weight, path in answer.paths:
        body += weight.to_bytes(4, "big") + bytes([len(path)]) + bytes(path)
    return (4 + len(body)).to_bytes(4, "big") + bytes(body)


def decode_answer(data, graph):
    """The answer of a form, read beside its graph; raises Refused (11 to 18) where the form is turned down."""
    n = len(graph.vertices)
    if len(data) < 15 + 8 * n or number_at(data, 0, 4) != len(data):
        raise Refused(11, 0)
    if data[4] != 1:
        raise Refused(12, 4)
    path_count, price = number_at(data, 5, 2), number_at(data, 7, 8)
    if path_count > MAX_PATHS:
        raise Refused(13, 5)

    at = 15
    numbers = []
    for _ in range(2 * n):
        mark = signed_at(data, at, 4)
        if not -MAX_MARK <= mark <= MAX_MARK:
            raise Refused(14, at)
        numbers.append(mark)
        at += 4
    marks = list(zip(numbers[0::2], numbers[1::2]))

    known = {(tail, head) for tail, head, _, _ in graph.arcs}
    total = 0
    paths = []
    for _ in range(path_count):
        if at + 5 > len(data):
            raise Refused(15, at)
        weight, count = number_at(data, at, 4), data[at + 4]
        if not 1 <= count <= 64:
            raise Refused(16, at)
        if at + 5 + count > len(data):
            raise Refused(15, at)
        path = tuple(data[at + 5:at + 5 + count])
        total += weight
        if weight == 0 or total > MAX_WEIGHT:
            raise Refused(17, at)
        if any(v >= n for v in path) or any(p not in known for p in pairs(path)):
            raise Refused(16, at)
        if not is_start(graph, path[0]) or not is_end(graph, path[-1]):
            raise Refused(16, at)
        # Python compares tuples as the document compares lists: a list comes before its own extensions.
        if paths and not paths[-1][1] < path:
            raise Refused(18, at)
        paths.append((weight, path))
        at += 5 + count

    if at != len(data):
        raise Refused(15, at)
    return Answer(price, marks, paths)


# Covers and prices, from the paths themselves.


def first_unmet(graph, paths):
    """The first item whose demand, or the first read which, these weighted paths do not meet; None where all are met."""
    n = len(graph.vertices)
    for v, (_, demand) in enumerate(graph.vertices):
        if sum(weight for weight, path in paths if v in path) < demand:
            return v
    for a, (tail, head, _, demand) in enumerate(graph.arcs):
        if sum(weight for weight, path in paths if (tail, head) in pairs(path)) < demand:
            return n + a
    for r, read in enumerate(graph.reads):
        if not any(holds(path, read) for _, path in paths):
            return n + len(graph.arcs) + r
    return None


def price_of_copy(graph, path):
    cost_of = {(tail, head): cost for tail, head, cost, _ in graph.arcs}
    return graph.opening + sum(cost_of[p] for p in pairs(path))


def price_of_cover(graph, paths):
    return sum(weight * price_of_copy(graph, path) for weight, path in paths)


def accept(graph_bytes, answer_bytes):
    """The graph and the answer of an accepted pair; raises Refused otherwise."""
    graph = decode_graph(graph_bytes)
    answer = decode_answer(answer_bytes, graph)
    unmet = first_unmet(graph, answer.paths)
    if unmet is not None:
        raise Refused(19, unmet)
    if answer.price != price_of_cover(graph, answer.paths):
        raise Refused(20, 0)
    below = first_slack_below_0(graph, answer.marks)
    if below is not None:
        raise Refused(21, below)
    if bound(graph, answer.marks) != answer.price:
        raise Refused(22, 0)
    return graph, answer


def check(graph_bytes, answer_bytes):
    try:
        accept(graph_bytes, answer_bytes)
    except Refused as r:
        return r.number, r.place
    return 0, 0


def hand_out(graph_bytes, answer_bytes, k):
    try:
        _, answer = accept(graph_bytes, answer_bytes)
        if not k < len(answer.paths):
            raise Refused(23, 0)
    except Refused as r:
        return r.number, r.place, b""
    return 0, 0, bytes(answer.paths[k][1])
