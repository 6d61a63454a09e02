"""Preparing the reads, from the scope document alone: Steps 1 and 2, with the tie rule and the places.

    prepare(reads) -> the prepared reads, in their places from low to high
"""


def holds(path, read):
    """Whether the vertices of read stand consecutively in path."""
    return any(tuple(path[i:i + len(read)]) == tuple(read) for i in range(len(path) - len(read) + 1))


def drop_parts(reads):
    """Step 1: drop a read that is a consecutive part of another; of equal reads keep the lowest numbered."""
    kept = []
    for i, read in enumerate(reads):
        part_of_longer = any(len(other) > len(read) and holds(other, read) for other in reads)
        equal_before = any(other == read for other in reads[:i])
        if not part_of_longer and not equal_before:
            kept.append(read)
    return kept


def longest_overlap(a, b):
    """The length of the longest proper suffix of a that equals a proper prefix of b; 0 where there is none."""
    for length in range(min(len(a), len(b)) - 1, 0, -1):
        if a[len(a) - length:] == b[:length]:
            return length
    return 0


def join_once(reads):
    """One turn of Step 2: the reads after joining the pair it takes; None where no pair overlaps."""
    best = None
    for i, a in enumerate(reads):
        for j, b in enumerate(reads):
            if i != j:
                length = longest_overlap(a, b)
                # Only a longer overlap displaces an earlier pair: ties go to the lowest i, then the lowest j.
                if length > 0 and (best is None or length > best[0]):
                    best = (length, i, j)
    if best is None:
        return None
    length, i, j = best
    joined = reads[i] + reads[j][length:]
    result = list(reads)
    result[min(i, j)] = joined
    del result[max(i, j)]
    return result


def prepare(reads):
    reads = drop_parts([tuple(read) for read in reads])
    while True:
        joined = join_once(reads)
        if joined is None:
            return reads
        reads = joined
