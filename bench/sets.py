"""Writes the benchmark's sets of graph forms to bench/built: each form behind its length in four bytes.

genes                     the splicing graphs of real genes in tests/data
limits                    64 vertices, 256 arcs, 16 reads; demands and prices to the ends of their ranges
limits_small, _large      the same with demands 0 to 10, and with each of them multiplied by 100,000
genes_small, _large       genes with demands at most 10, and with each of them multiplied by 100,000
"""

import os
import random
import sys

HERE = os.path.dirname(os.path.abspath(__file__))
sys.path.insert(0, os.path.join(HERE, "..", "tests", "reference"))

from forms import encode_graph
from generate import make

SEED = 4
LIMITS = 40


def with_demands(graph, change):
    vertices = [(flags, change(demand)) for flags, demand in graph.vertices]
    arcs = [(tail, head, cost, change(demand)) for tail, head, cost, demand in graph.arcs]
    return graph._replace(vertices=vertices, arcs=arcs)


def write(name, graphs):
    with open(os.path.join(HERE, "built", name + ".forms"), "wb") as f:
        for graph in graphs:
            form = encode_graph(graph)
            f.write(len(form).to_bytes(4, "big") + form)


if __name__ == "__main__":
    rng = random.Random(SEED)
    genes, limits = make("genes", SEED, None), make("limits", SEED, LIMITS)
    write("genes", genes)
    write("limits", limits)
    for name, graphs in (("limits", [with_demands(graph, lambda _: rng.randrange(11)) for graph in limits]),
                         ("genes", [with_demands(graph, lambda demand: min(demand, 10)) for graph in genes])):
        write(name + "_small", graphs)
        write(name + "_large", [with_demands(graph, lambda demand: demand * 100_000) for graph in graphs])
    print(f"sets: {len(genes)} genes, {len(limits)} graphs at the limits, seed {SEED}")
