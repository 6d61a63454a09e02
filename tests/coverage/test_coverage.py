"""Demands from base counts, from outside: the archive by the driver, the program `demands` and the tool against whole-number division, and a
table that `samtools bedcov` makes of aligned reads."""

import os
import random
import subprocess
import sys
import tempfile

ROOT = os.path.join(os.path.dirname(os.path.abspath(__file__)), "..", "..")
sys.path.insert(0, os.path.join(ROOT, "tests", "reference"))

from coverage import MAX_BASES, demands

seed, pairs, driver = sys.argv[1:]
passed = failed = 0


def holds_that(what, got, wanted):
    global passed, failed
    if got == wanted:
        passed += 1
    else:
        failed += 1
        print(f"{what}: got {got}, wanted {wanted}")


def run(words, data=""):
    return subprocess.run(words, input=data.encode() if isinstance(data, str) else data, stdout=subprocess.PIPE, stderr=subprocess.PIPE)


def by_program(table):
    return run([os.path.join(ROOT, "tools", "run"), "demands"], table).stdout.decode()


def by_tool(text):
    ran = run([os.path.join(ROOT, "tools", "coverage")], text)
    return ran.returncode, ran.stdout.decode(), ran.stderr.decode()


def printed(bases, lengths):
    answer = demands(bases, lengths, [0] * len(bases))
    if answer.number:
        return f"refused {answer.number} {answer.place}\n"
    return "".join(f"{demand}\n" for demand in answer.demands)


def binary(bases, lengths):
    return b"".join(n.to_bytes(4, "big") for pair in zip(bases, lengths) for n in pair)


# The archive: the driver's last line counts.
ran = run([driver, seed, pairs])
lines = ran.stdout.decode().splitlines()
print("\n".join(lines[:-1]))
counted = lines[-1].split() if lines else ["0", "passed,", "1", "failed"]
passed += int(counted[0])
failed += int(counted[2]) + (ran.returncode != 0 and counted[2] == "0")

# The program: every number of exons around both ends, faults, and tables that are cut short.
rng = random.Random(int(seed))
for exons in (0, 1, 2, 255, 256, 257, 511, 512, 513, 600):
    lengths = [rng.randint(1, 1_000_000) for _ in range(exons)]
    bases = [rng.randint(0, min(MAX_BASES, 1_000_000 * length)) for length in lengths]
    table = binary(bases, lengths)
    holds_that(f"{exons} exons", by_program(table), printed(bases, lengths))
    if exons:
        for short in range(1, 8):
            holds_that(f"{exons} exons, {short} bytes short", by_program(table[:-short]), "refused 30 0\n")
holds_that("a length of 0", by_program(binary([1, 1], [1, 0])), "refused 32 1\n")
holds_that("a quotient too large", by_program(binary([1, 1_000_001, 1], [1, 1, 0])), "refused 33 1\n")

# The tool: what it prints, what it refuses, and what is no table.
holds_that("two exons", by_tool("# sum of depths\nchr1\t100\t200\t250\nchr1\t300\t310\tname\t9\n"), (0, "0\t2\tchr1\t100\t200\t250\n1\t0\tchr1\t300\t310\tname\t9\n", ""))
holds_that("an exon of no length", by_tool("chr1\t0\t10\t5\nchr1\t10\t10\t5\n"), (1, "refused 32 1\n", ""))
holds_that("an exon too long", by_tool("chr1\t0\t1000001\t5\n"), (1, "refused 32 0\n", ""))
holds_that("a coverage too large", by_tool("chr1\t0\t1\t1000001\n"), (1, "refused 33 0\n", ""))
holds_that("an empty table", by_tool(""), (1, "refused 30 0\n", ""))
holds_that("257 exons", by_tool("chr1\t0\t10\t50\n" * 257), (1, "refused 30 0\n", ""))
for what, text in (("three columns", "chr1\t0\t10\n"), ("words", "chr1\tfirst\tend\t5\n"), ("an exon backwards", "chr1\t10\t9\t5\n"), ("too many bases", "chr1\t0\t10\t4294967296\n")):
    status, out, err = by_tool(text)
    holds_that(what, (status, out, err.startswith("coverage: line 1: ")), (1, "", True))

# Reads aligned by hand, their bases counted by samtools.
EXONS = [("chr1", 100, 200), ("chr1", 300, 307), ("chr1", 500, 501), ("chr1", 700, 900)]
READS = [(100, "100M"), (150, "50M100N7M"), (300, "7M"), (301, "6M193N1M"), (700, "100M"), (750, "30M5I65M"), (880, "20M")]


def aligned(start, cigar):
    """The bases, from 0, that a read covers: M in its CIGAR; N passes over, I takes no place."""
    covered, number = [], ""
    for sign in cigar:
        if sign.isdigit():
            number += sign
            continue
        if sign == "M":
            covered += range(start, start + int(number))
        if sign in "MN":
            start += int(number)
        number = ""
    return covered


def letters(cigar):
    """How many letters the read has: M and I."""
    number, total = "", 0
    for sign in cigar:
        if sign.isdigit():
            number += sign
            continue
        total += int(number) if sign in "MI" else 0
        number = ""
    return total


with tempfile.TemporaryDirectory() as folder:
    sam, bam, bed = (os.path.join(folder, name) for name in ("reads.sam", "reads.bam", "exons.bed"))
    with open(sam, "w") as f:
        f.write("@HD\tVN:1.6\tSO:coordinate\n@SQ\tSN:chr1\tLN:1000\n")
        for number, (start, cigar) in enumerate(sorted(READS)):
            f.write(f"r{number}\t0\tchr1\t{start + 1}\t60\t{cigar}\t*\t0\t0\t{'A' * letters(cigar)}\t*\n")
    with open(bed, "w") as f:
        f.writelines(f"{name}\t{first}\t{end}\n" for name, first, end in EXONS)
    for words in (["samtools", "view", "-b", "-o", bam, sam], ["samtools", "index", bam]):
        holds_that(" ".join(words[:2]), run(words).returncode, 0)
    table = run(["samtools", "bedcov", bed, bam]).stdout.decode()
covered = [base for start, cigar in READS for base in aligned(start, cigar)]
bases = [sum(first <= base < end for base in covered) for _, first, end in EXONS]
lengths = [end - first for _, first, end in EXONS]
holds_that("samtools counts bases", [int(line.split("\t")[-1]) for line in table.splitlines()], bases)
status, out, err = by_tool(table)
holds_that("demands of aligned reads", (status, [line.split("\t")[1] for line in out.splitlines()]), (0, printed(bases, lengths).split()))
print(f"{passed} passed, {failed} failed")
sys.exit(failed != 0)
