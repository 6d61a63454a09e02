"""The two second solvers against each other and against the reference's checker, on seeded graphs.

    python3 tests/solver/test_solvers.py [SEED [TIMES]]    TIMES multiplies the number of graphs

For each small graph: the exhaustive search on the original reads and cycle cancelling on the prepared reads give the same lowest
price; the cover of either is accepted with the marks of the second. For each graph of the larger families: the answer is accepted.
Then the comparison itself is tried: solvers with a known mistake must be caught by it.
"""

import sys

import network
from exhaustive import lowest_price
from exists import first_without_path
from forms import Answer, check, encode_answer, encode_graph, read_graph
from generate import make
import bound
import prepare
from tally import end
from tally import holds_that as counted

SMALL = 4000
LARGE = {"genes": 133, "splicing": 300, "hard_reads": 300, "dense": 60, "wide_demands": 60, "limits": 30}


def holds_that(got, wanted, graph, what):
    counted(lambda: f"{what}, at {graph}", got, wanted)


def price_of(answer):
    return None if answer is None else answer.price


def compare_small(name, graphs):
    refused = 0
    for graph, answer in zip(graphs, network.solve(graphs)):
        price, cover = lowest_price(graph)
        refused += price is None
        holds_that(first_without_path(graph) is None, price is not None, graph, "a cover exists where each asked item lies on a path")
        holds_that(price_of(answer), price, graph, "lowest price")
        if answer is not None:
            form = encode_graph(graph)
            holds_that(check(form, encode_answer(answer)), (0, 0), graph, "cycle cancelling's cover")
            found = Answer(price, answer.marks, [(weight, path) for path, weight in cover])
            holds_that(check(form, encode_answer(found)), (0, 0), graph, "the exhaustive search's cover, with the marks")
    print(f"{name}: {len(graphs)} graphs, {refused} of them without a cover: exhaustive search and cycle cancelling agree")


def check_large(name, graphs):
    for graph, answer in zip(graphs, network.solve(graphs)):
        form = encode_graph(graph)
        holds_that(read_graph(form), (0, 0), graph, "reads")
        holds_that(answer is not None, True, graph, "has a cover")
        holds_that(check(form, encode_answer(answer)), (0, 0), graph, "cycle cancelling's cover")
    print(f"{name}: {len(graphs)} graphs, each answer accepted")


# Mistakes that the comparison must catch.


def joined_in_file_order(reads):
    reads = prepare.drop_parts([tuple(read) for read in reads])
    joined = True
    while joined:
        joined = False
        for i, a in enumerate(reads):
            for j, b in enumerate(reads):
                if not joined and i != j and prepare.longest_overlap(a, b) > 0:
                    whole = a + b[prepare.longest_overlap(a, b):]
                    reads = [r for k, r in enumerate(reads) if k not in (i, j)] + [whole]
                    joined = True
    return reads


def not_joined(reads):
    return prepare.drop_parts([tuple(read) for read in reads])


def rests_in_full(graph):
    return [demand for _, demand in graph.vertices], [demand for _, _, _, demand in graph.arcs]


def must_be_caught(what, graphs, **changed):
    old = {name: getattr(network, name) for name in changed}
    for name, value in changed.items():
        setattr(network, name, value)
    try:
        answers = network.solve(graphs)
    finally:
        for name, value in old.items():
            setattr(network, name, value)
    caught = sum(1 for graph, answer in zip(graphs, answers) if price_of(answer) != lowest_price(graph)[0])
    holds_that(caught > 0, True, None, f"{what} is caught")
    print(f"a solver {what} is caught on {caught} of {len(graphs)} graphs")


def rests_with(prepared_by):
    def changed(graph):
        old = bound.prepare
        bound.prepare = prepared_by
        try:
            return bound.rests(graph)
        finally:
            bound.prepare = old
    return changed


if __name__ == "__main__":
    seed = int(sys.argv[1]) if len(sys.argv) > 1 else 1
    times = int(sys.argv[2]) if len(sys.argv) > 2 else 1
    print(f"seed {seed}")
    compare_small("every small", make("every_small", seed, None))
    small = make("small", seed, SMALL * times)
    compare_small("small", small)
    reads = make("small_reads", seed, SMALL * times)
    compare_small("small_reads", reads)
    for family, count in LARGE.items():
        check_large(family, make(family, seed, count * times))
    must_be_caught("that joins reads in file order", reads, prepare=joined_in_file_order, rests=rests_with(joined_in_file_order))
    must_be_caught("that joins no reads", reads, prepare=not_joined, rests=rests_with(not_joined))
    must_be_caught("that counts demands in full beside the reads", reads, rests=rests_in_full)
    end()
