#!/usr/bin/env python3
"""Spells the repository's own definitions and lemmas as today's Rattle does: words in snake case, `vertexCount` as `vertex_count` and `scan-turns` as `scan_turns`.

usage: respell.py [--check] [ROOT]

It was run once, at the top of the repository, right after the toolchain's own respelling (docs/PORT.md). It turns the names that files of specs/ and of
laws in proofs/ declare, and the variables beside them, wherever they stand in crates/: in .antt files and in the clauses of .rt files.
Names of Rust functions, types and modules stay; so do the names that Rattle makes of the code, which only Proof.antt files cite.
Names that fall together in one file are listed; those that had to be told apart stand in APART. A definition may meet the function that computes it.
"""

import collections
import os
import re
import sys

WORD = re.compile(r"[^\s(){}.;,@\"«»\[\]|⟦⟧`]+")
DECLARED = re.compile(r"(?m)^ *(?:(?:pub|abbrev|unfoldable|record|data) +)*([^\s(){}.;,@\"«»:]+)(?: \{[^{}\n]*\}| \([^()\n]*\))* :")
OF_LIBRARY = re.compile(r"use (?:Rattle\.std|Prim|mathlib|native|borrow|lib|denote)\.[^\s{]*\.\{([^}]*)\}")
COMMENT = re.compile(r"(?<![^\s(){}.;,@\"«»])--[^\n]*")
MADE = re.compile(r"(?:tie|goal|need|given)\.$")

# Names that would fall together with another: by their old spelling, the new one.
APART = {
    "is-path": "is_a_path",
    "opening-raised": "opening_no_less",
    "vertex-terms": "vertex_terms_hold",
    "arc-terms": "arc_terms_hold",
    "read-terms": "read_terms_hold",
    "same-price": "price_is_same",
    "some_holds": "some_holds_lem",
    "same_item": "same_item_lem",
    "some_out": "some_out_lem",
    "edge_to": "edge_to_lem",
    "read_length": "read_length_lem",
    "in_use": "links_in_use",
    "getD-among": "get_or_among",
    "getD-without": "get_or_without",
}

# A law's name that a Rust function has too.
ONLY_IN_LAWS = {"read_length"}


def paths(root, endings):
    for folder, folders, names in os.walk(os.path.join(root, "crates")):
        folders[:] = sorted(f for f in folders if f != "out")
        for name in sorted(names):
            if name.endswith(endings):
                yield os.path.join(folder, name)


def read(path):
    with open(path, encoding="utf-8") as file:
        return file.read()


def declared_names(root):
    """The names that files of definitions and laws declare; those of a function's own proof are apart."""
    names = set()
    for path in paths(root, ".antt"):
        if not path.endswith("/Proof.antt"):
            names |= set(DECLARED.findall(COMMENT.sub("", read(path))))
    return names


def camel_names(root):
    """Names in camel case that begin low, wherever they stand: definitions, fields and variables."""
    names = set()
    for path in paths(root, ".antt"):
        for word in WORD.findall(COMMENT.sub("", read(path))):
            if re.search(r"[a-z0-9'][A-Z]", word) and word[0].islower() and "/" not in word:
                names.add(word)
    return names


def in_snake_case(name):
    if not name[0].isupper():
        name = re.sub(r"(?<=[a-z0-9'])[A-Z]", lambda m: "_" + m[0].lower(), name)
    return name.replace("-", "_")


def table(root):
    """By its old spelling, each name's new one. A law or a field that would get the name of a definition ends in `_lem`."""
    camel, declared = camel_names(root), declared_names(root)
    taken = {in_snake_case(n) for n in camel if "-" not in n} | {n for n in declared if "-" not in n}
    new = {n: in_snake_case(n) for n in camel}
    for name in declared:
        if "-" in name and not name.startswith("-"):
            spelled = in_snake_case(name)
            new[name] = spelled + "_lem" if spelled in taken else spelled
    return new | APART


def turned(text, new, kept, of_function):
    """The text with each word of the table turned, but for those kept and for names that Rattle makes, as a step of a function's own proof."""

    def one(match):
        word, before = match[0], text[max(0, match.start() - 6) : match.start()]
        is_step = of_function and before.endswith(".") and new.get(word, "").endswith("_lem")
        if word not in new or word in kept or is_step or MADE.search(before):
            return word
        return new[word]

    return WORD.sub(one, text)


def of_library(text):
    return {w for group in OF_LIBRARY.findall(text) for w in re.split(r"[\s,]+", group) if w}


def fallen_together(path, text, new, kept):
    """The names of one file that would get the spelling of another of its names."""
    by_new = collections.defaultdict(set)
    for word in set(WORD.findall(COMMENT.sub("", text) if path.endswith(".antt") else re.sub(r"//[^\n]*", "", text))):
        by_new[new.get(word, word) if word not in kept else word].add(word)
    return {n: sorted(ws) for n, ws in by_new.items() if len(ws) > 1}


def main(args):
    only_check = "--check" in args
    root = next((a for a in args if not a.startswith("--")), ".")
    new = table(root)
    clashes = 0
    for path in paths(root, (".antt", ".rt")):
        text = read(path)
        kept = of_library(text) | (ONLY_IN_LAWS if path.endswith(".rt") else set())
        for name, words in fallen_together(path, text, new, kept).items():
            clashes += 1
            print(f"{path}: {' '.join(words)} -> {name}")
        if not only_check:
            after = turned(text, new, kept, path.endswith("/Proof.antt"))
            if after != text:
                with open(path, "w", encoding="utf-8") as file:
                    file.write(after)
    print(f"{len(new)} names, {clashes} meetings")
    return 0


if __name__ == "__main__":
    raise SystemExit(main(sys.argv[1:]))
