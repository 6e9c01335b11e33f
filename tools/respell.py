#!/usr/bin/env python3
"""Brings the repository's own words in specs/, proofs/, clauses and must-fail edits to snake case.

usage: tools/respell.py        once, at the top, after the toolchain's own script

A word that begins with a small letter and has a capital inside is a definition's, a lemma's or a field's, since the names of
functions in src/ are in snake case and types begin with a capital. Where two names would fall together in one file, one of
them gets another name first: a lemma that had its function's name ends in `_lem`.
"""

import glob
import re

WORD = re.compile(r"(?<![A-Za-z0-9_'])[A-Za-z_][A-Za-z0-9_'₀-₉]*")

# file: names that have to make way there
FIRST = {
    "crates/batches/proofs/OneBatch.antt": {"left_by": "left_by_lem"},
    "crates/laws/proofs/NewIndexes.antt": {"row_count": "row_count_lem"},
    "crates/histograms/proofs/Histograms.antt": {"rows_in": "rows_in_lem"},
    "crates/merge/proofs/Histograms.antt": {"rows_in": "rows_in_lem"},
    "crates/laws/proofs/RankHolds.antt": {"tooMany": "isTooMany"},
    "crates/ranks/proofs/Narrowing.antt": {"top_part": "top_part_lem"},
}


def snake(word):
    if not word[0].islower():
        return word
    return re.sub(r"(?<=[a-z0-9'])[A-Z]", lambda m: "_" + m.group(0).lower(), word)


def respelled(text, first):
    text = WORD.sub(lambda m: first.get(m.group(0), m.group(0)), text)
    return WORD.sub(lambda m: snake(m.group(0)), text)


def clauses(text):
    """The text of a source file with its strings kept as they are."""
    parts = re.split(r'("(?:[^"\\\n]|\\.)*")', text)
    return "".join(p if i % 2 else respelled(p, {}) for i, p in enumerate(parts))


def edit(text):
    lines = text.split("\n")
    return "\n".join(respelled(x, {}) if x.startswith(("old:", "new:")) else x for x in lines)


def main():
    for pattern, turn in (("**/*.antt", None), ("src/*.rt", clauses), ("must-fail/*.edit", edit)):
        for path in sorted(glob.glob("crates/*/" + pattern, recursive=True)):
            with open(path, encoding="utf-8") as f:
                was = f.read()
            now = respelled(was, FIRST.get(path, {})) if turn is None else turn(was)
            if now != was:
                with open(path, "w", encoding="utf-8") as f:
                    f.write(now)


main()
