"""The rows of "Numbers to hold against the definitions", each held against the reference. Run: python3 tests/reference/test_rows.py"""

import os
import sys

sys.path.insert(0, os.path.join(os.path.dirname(os.path.abspath(__file__)), ".."))

from bound import bound, first_slack_below_0, rests
from cases import (D, D_ANSWER, D_MARKS, D_WITH_3, D_WITH_3_ANSWER, D_WITH_READ, L, L_ANSWER, NONE_ASKED, NONE_ASKED_ANSWER,
                   NO_END, ONE, ONE_ANSWER, X, X_ANSWER)
from exists import refusal_of_builder
from forms import (LONGEST_ANSWER, LONGEST_GRAPH, Answer, Graph, check, decode_answer, decode_graph, encode_answer,
                   encode_graph, hand_out, read_graph)
from prepare import prepare
from tally import end, holds_that


def accepted(what, graph, answer):
    holds_that(what, check(encode_graph(graph), encode_answer(answer)), (0, 0))
    holds_that(what + ": bound is price", bound(graph, answer.marks), answer.price)
    holds_that(what + ": the graph form read back", decode_graph(encode_graph(graph)), graph)
    holds_that(what + ": the answer form read back", decode_answer(encode_answer(answer), graph), answer)
    holds_that(what + ": the builder does not refuse", refusal_of_builder(encode_graph(graph), LONGEST_ANSWER), (0, 0))


d = encode_graph(D)
holds_that("D has 73 bytes", len(d), 73)
holds_that("D reads", read_graph(d), (0, 0))
accepted("D: price 34", D, D_ANSWER)
holds_that("D: no slack below 0", first_slack_below_0(D, D_MARKS), None)
accepted("D with read 0 1 3: price 34, same marks", D_WITH_READ, D_ANSWER)
holds_that("D with read 0 1 3: rests", rests(D_WITH_READ), ([0, 0, 1, 0], [0, 0, 0, 0]))
accepted("D with demand 3 on arc 0-1: price 66", D_WITH_3, D_WITH_3_ANSWER)
accepted("one vertex: price 10", ONE, ONE_ANSWER)
accepted("one vertex, demand 0: price 0, no paths", NONE_ASKED, NONE_ASKED_ANSWER)
holds_that("one vertex, flag 1, demand 1", refusal_of_builder(encode_graph(NO_END), LONGEST_ANSWER), (8, 0))
holds_that("8 before 9", refusal_of_builder(encode_graph(NO_END), 0), (8, 0))
holds_that("9", refusal_of_builder(d, LONGEST_ANSWER - 1), (9, 0))
accepted("L: price 24", L, L_ANSWER)
holds_that("L prepared", prepare(L.reads), [(0, 1, 2, 3), (2, 4)])
accepted("X: price 24", X, X_ANSWER)
holds_that("X prepared", prepare(X.reads), [(0, 2, 3), (1, 2, 4)])

holds_that("D, all marks 0", check(d, encode_answer(D_ANSWER._replace(marks=[(0, 0)] * 4))), (22, 0))
holds_that("D, in-mark of 0 is 11", check(d, encode_answer(D_ANSWER._replace(marks=[(11, 10)] + D_MARKS[1:]))), (21, 0))
holds_that("D, price stated as 33", check(d, encode_answer(D_ANSWER._replace(price=33))), (20, 0))
holds_that("D, only path 0 1 3", check(d, encode_answer(Answer(16, D_MARKS, [(1, (0, 1, 3))]))), (19, 2))

one_to_one = D._replace(arcs=D.arcs[:2] + [(1, 1, 4, 0)] + D.arcs[3:])
holds_that("arc from 1 to 1", read_graph(encode_graph(one_to_one)), (6, 13 + 20 + 20))


def chain(vertices, reads):
    return Graph(10, [(3, 1)] * vertices, [(v, v + 1, 0, 0) for v in range(vertices - 1)], reads)


for length, number in ((1, 7), (2, 0), (16, 0), (17, 7)):
    form = encode_graph(chain(20, [tuple(range(length))]))
    holds_that(f"read of {length} vertices", read_graph(form)[0], number)
for demand, number in ((1_000_000, 0), (1_000_001, 4)):
    form = encode_graph(D._replace(vertices=[(1, demand)] + D.vertices[1:]))
    holds_that(f"demand {demand}", read_graph(form), (number, 13 if number else 0))
holds_that("a 12-byte graph", read_graph(bytes([0, 0, 0, 12]) + d[4:12]), (1, 0))

# Lengths of the longest forms, from the limits.
every_pair = [(tail, head) for tail in range(64) for head in range(tail + 1, 64)]
shortest_256 = sorted(sorted(every_pair, key=lambda arc: arc[1] - arc[0])[:256])
longest = Graph(0, [(3, 0)] * 64, [(tail, head, 0, 0) for tail, head in shortest_256], [tuple(range(16))] * 16)
holds_that("the longest graph form", (len(encode_graph(longest)), read_graph(encode_graph(longest))), (LONGEST_GRAPH, (0, 0)))
holds_that("the longest answer form", 15 + 64 * 8 + 464 * (5 + 64), LONGEST_ANSWER)

holds_that("hand-out, path 0", hand_out(d, encode_answer(D_ANSWER), 0), (0, 0, bytes([0, 1, 3])))
holds_that("hand-out, path 1", hand_out(d, encode_answer(D_ANSWER), 1), (0, 0, bytes([0, 2, 3])))
holds_that("hand-out, path 2", hand_out(d, encode_answer(D_ANSWER), 2), (23, 0, b""))
holds_that("hand-out of a refused answer", hand_out(d, encode_answer(D_ANSWER._replace(price=33)), 9), (20, 0, b""))

# The wrong turns.
holds_that("a read met with others between", check(encode_graph(D._replace(arcs=sorted(D.arcs + [(0, 3, 9, 0)]), reads=[(0, 3)])),
                                                   encode_answer(D_ANSWER)), (19, 4 + 5))
joined_in_file_order = [(0, 1, 2, 4), (1, 2, 3)]
holds_that("L is not joined in file order", sorted(prepare(L.reads)) == sorted(joined_in_file_order), False)

end()
