#!/usr/bin/env python3
"""Brings the repository's own definitions and lemmas to the spelling of today's Rattle. It ran once, right after the kit's own scripts.

usage: python3 tools/spelling.py [FOLDER]

Words are in snake case, types and modules in camel case, and there is no middle dot in a name. A dash joins the names of two
definitions; other words are joined by `_`. tools/spelling.txt has each name, old and new. Functions of src/, exported names, strings and
paths to proofs keep theirs.
"""
import os
import re
import sys

HERE = os.path.dirname(os.path.abspath(__file__))
ROOT = sys.argv[1] if len(sys.argv) > 1 else os.path.dirname(HERE)
PART = r"\w'′₀-₉·"


def table():
    """The names that are turned everywhere, those of lemmas alone, and those that a definition's new name pushed aside."""
    everywhere, lemmas, aside = {}, {}, {}
    into = None
    for line in open(os.path.join(HERE, "spelling.txt"), encoding="utf-8"):
        if line.startswith("#"):
            into = aside if line.startswith("# Lemmas") else None
            continue
        old, new = line.split()
        (into if into is not None else lemmas if "-" in old else everywhere)[old] = new
    return everywhere, lemmas, aside


def turner(names, before="", behind=""):
    found = "|".join(re.escape(it) for it in sorted(names, key=len, reverse=True))
    return re.compile(rf"(?<![{PART}{before}-])(?:{found})(?![{PART}{behind}-])"), lambda it: names[it[0]]


def main():
    everywhere, lemmas, aside = table()
    # A name that moves aside does so before another one takes its place.
    aside |= {old: new for old, new in lemmas.items() if new.endswith("_lem")}
    antt = [turner(aside, behind="."), turner({it: lemmas[it] for it in lemmas if it not in aside}), turner(everywhere)]
    code = [turner(everywhere)]
    changed = 0
    for folder, folders, files in os.walk(os.path.join(ROOT, "crates")):
        folders[:] = sorted(it for it in folders if it != "out")
        for name in sorted(files):
            turns = antt if name.endswith((".antt", ".edit")) else code if name.endswith(".rt") else []
            path = os.path.join(folder, name)
            if not turns:
                continue
            text = whole = open(path, encoding="utf-8").read()
            for pattern, new in turns:
                text = pattern.sub(new, text)
            if text != whole:
                changed += 1
                open(path, "w", encoding="utf-8").write(text)
    print(f"spelling: {changed} files changed")


main()
