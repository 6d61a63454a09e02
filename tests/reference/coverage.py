"""Demands from base counts, document 02, request #110, a second time: with whole numbers only, no float anywhere."""

from collections import namedtuple

MAX_BASES = 4_294_967_295
MAX_LENGTH = 1_000_000
MAX_QUOTIENT = 1_000_000
MAX_EXONS = 256

Filled = namedtuple("Filled", "number place written demands")


def demands(bases, lengths, lent):
    """What the call answers, and what the lent list then holds."""

    def refused(number, place):
        return Filled(number, place, 0, list(lent))

    if not len(bases) == len(lengths) == len(lent) or not 1 <= len(lent) <= MAX_EXONS:
        return refused(30, 0)
    for exon, (count, length) in enumerate(zip(bases, lengths)):
        if not 1 <= length <= MAX_LENGTH:
            return refused(32, exon)
        if count // length > MAX_QUOTIENT:
            return refused(33, exon)
    return Filled(0, 0, len(lent), [count // length for count, length in zip(bases, lengths)])
