"""Writes the vectors of demands from base counts: crates/coverage_vectors/stdin (records: how many bases, lengths and lent entries, then the
bases and the lengths, four bytes each, high byte first) and crates/coverage_vectors/stdout (for each record a line NUMBER PLACE WRITTEN and
every entry of the lent list, from the independent implementation of tests/reference).

    python3 tests/vectors/make_coverage_vectors.py            write both files
    python3 tests/vectors/make_coverage_vectors.py --check    only compare the files with what would be written
    python3 tests/vectors/make_coverage_vectors.py --list     print line number, answer and name of each vector
"""

import os
import random
import sys

ROOT = os.path.join(os.path.dirname(os.path.abspath(__file__)), "..", "..")
sys.path.insert(0, os.path.join(ROOT, "tests", "reference"))
sys.path.insert(0, os.path.join(ROOT, "tests"))

import stored
from coverage import MAX_BASES, MAX_EXONS, MAX_LENGTH, MAX_QUOTIENT, demands
from tally import must

SEED = 20261116
HELD = 77  # what each entry of the lent list holds before the call
ROOM = 300  # how many entries of each list the program holds
vectors = []


def add(name, bases, lengths, lent=None):
    vectors.append((name, list(bases), list(lengths), len(bases) if lent is None else lent))


# Quotients just below, at and above whole numbers, at both ends of both ranges; the most bases by each kind of length.
LENGTHS = (1, 2, 3, 4_294, 4_295, 65_536, 65_537, 524_287, 524_288, 999_999, MAX_LENGTH)
QUOTIENTS = (0, 1, 2, 4_294, 999_999, MAX_QUOTIENT, MAX_QUOTIENT + 1)
for length in LENGTHS:
    near = [quotient * length + step for quotient in QUOTIENTS for step in (-1, 0, 1)]
    last = MAX_BASES // length * length
    near += [0, 1, length - 1, MAX_BASES - 1, MAX_BASES, last - 1, last]
    for bases in sorted({bases for bases in near if 0 <= bases <= MAX_BASES}):
        add(f"{bases} bases by {length}", [bases], [length])

# 32: both sides of the range of a length, at every kind of place.
for length in (0, 1, 2, MAX_LENGTH - 1, MAX_LENGTH, MAX_LENGTH + 1, MAX_LENGTH + 2, MAX_BASES):
    for bases in (0, 1, MAX_BASES if length > 4_294 else 7):
        add(f"length {length}, {bases} bases", [bases], [length])
for exons in (2, 3, 255, 256):
    for place in sorted({0, 1, exons // 2, exons - 2, exons - 1}):
        for bad in (0, MAX_LENGTH + 1):
            lengths = [100] * exons
            lengths[place] = bad
            add(f"length {bad} at {place} of {exons}", range(exons), lengths)
        bases = [5] * exons
        bases[place] = (MAX_QUOTIENT + 1) * 100
        add(f"quotient 1,000,001 at {place} of {exons}", bases, [100] * exons)
        bases[place] -= 1
        add(f"quotient 1,000,000 and a fraction at {place} of {exons}", bases, [100] * exons)

# 30: lists of 0, 1, 256 and 257, of unequal lengths each way, and before every fault of an exon.
for exons in (0, 1, 2, 255, 256, 257, 258, ROOM):
    add(f"{exons} exons", [1_000 * exon for exon in range(exons)], [exon + 1 for exon in range(exons)])
SIZES = (0, 1, 2, 255, 256, 257)
for bases in SIZES:
    for lengths in SIZES:
        for lent in SIZES:
            if len({bases, lengths, lent}) > 1 and (abs(bases - lengths) <= 1 or abs(lengths - lent) <= 1):
                add(f"lists of {bases}, {lengths} and {lent}", [9] * bases, [2] * lengths, lent)
add("lists of 2, 2 and 3, with a length of 0", [1, 1], [0, 1], 3)
add("lists of 1, 2 and 2, with a quotient too large", [MAX_BASES], [1, 1], 2)
add("257 exons, the first of length 0", [1] * 257, [0] + [1] * 256)

# Faults in pairs: the earlier exon decides, and within an exon 32.
FAULTS = {"length 0": (1, 0), "length 1,000,001": (1, MAX_LENGTH + 1), "quotient 1,000,001": (MAX_QUOTIENT + 1, 1), "quotient at the most bases": (MAX_BASES, 4_294)}
for first, one in FAULTS.items():
    for second, other in FAULTS.items():
        for here, there in ((0, 1), (1, 3), (0, 255), (254, 255)):
            exons = 256 if there == 255 else 4
            counts = [(12, 5)] * exons
            counts[here], counts[there] = one, other
            add(f"{first} at {here} before {second} at {there}", *zip(*counts))
add("length 0 and any quotient", [MAX_BASES], [0])
add("length above its range and a quotient of 4,294", [MAX_BASES], [MAX_LENGTH + 1])

# Whole lists: below 1 the demand is 0; random counts.
add("coverage below 1", [0, 1, 99, 999_999], [1, 2, 100, 1_000_000])
rng = random.Random(SEED)
for exons in (1, 7, 64, 255, 256):
    for fault in (False, True):
        lengths = [rng.choice((rng.randint(1, 300), rng.randint(1, MAX_LENGTH))) for _ in range(exons)]
        bases = [min(MAX_BASES, rng.randint(0, MAX_QUOTIENT) * length + rng.randint(0, length - 1)) for length in lengths]
        if fault:
            bases[rng.randrange(exons)] = MAX_BASES
            lengths[rng.randrange(exons)] = rng.choice((0, 1, 4_294, MAX_LENGTH + 1))
        add(f"{exons} random exons{', one changed' if fault else ''}", bases, lengths)

stdin = bytearray()
lines = []
for name, bases, lengths, lent in vectors:
    for number in (len(bases), len(lengths), lent, *bases, *lengths):
        stdin += number.to_bytes(4, "big")
    answer = demands(bases, lengths, [HELD] * lent)
    lines.append((name, " ".join(str(n) for n in (answer.number, answer.place, answer.written, *answer.demands))))
must(max(max(len(bases), len(lengths), lent) for _, bases, lengths, lent in vectors) <= ROOM, "a list is longer than the program holds")
must({0, 30, 32, 33} == {int(line.split()[0]) for _, line in lines}, "a number is never given")
stored.keep("coverage_vectors", stdin, lines, f"{len(vectors)} vectors")
