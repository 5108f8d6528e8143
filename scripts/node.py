#!/usr/bin/env python3
"""Lists where a kind of node stands, crate by crate, lowest first: what a new kind like it has to be added to.

usage: node.py NAME..

NAME is a variant, as Glob, or several, as Closure TypedClosure. A line is printed for each file of
sources, definitions and proofs that names one of them outside its imports, with the numbers of
these lines; then the files of the other program, the documents and the tests that do. The last line
counts them. The status is 1 where no crate names one.
"""
import collections
import re
import sys

import crates
import usage

IMPORT = re.compile(r"\s*(?:ghost |pub )*use ")
PARTS = ("src", "specs", "proofs")
OTHERS = [
    ("tools/oracle/src", "*.rs"),
    ("docs", "*.md"),
    ("tests", "*.rt"),
    ("tests", "*.rs"),
    ("tests", "*.edit"),
]


def lines_of(path, word):
    lines = path.read_text().splitlines()
    return [at for at, line in enumerate(lines, 1) if word.search(line) and not IMPORT.match(line)]


def found_in(names):
    """The files of crates that name one, each with its part and the numbers of the lines."""
    word = re.compile(rf"\b(?:{'|'.join(map(re.escape, names))})\b")
    for crate in crates.below():
        for part in PARTS:
            for path in sorted((crates.TOP / "crates" / crate / part).rglob("*")):
                if path.suffix in (".rt", ".antt") and (lines := lines_of(path, word)):
                    yield crate, part, path.relative_to(crates.TOP / "crates"), lines


def others(names):
    word = re.compile(rf"\b(?:{'|'.join(map(re.escape, names))})\b")
    for folder, kind in OTHERS:
        for path in sorted((crates.TOP / folder).rglob(kind)):
            if lines := lines_of(path, word):
                yield path.relative_to(crates.TOP), lines


def main():
    names = usage.words(__doc__, least=1)
    files, lines, named = collections.Counter(), 0, set()
    for crate, part, path, its in found_in(names):
        print(f"{path}: {', '.join(map(str, its))}")
        files[part] += 1
        lines += len(its)
        named.add(crate)
    for path, its in others(names):
        print(f"{path}: {', '.join(map(str, its))}")
    counted = ", ".join(f"{files[part]} files of {part}" for part in PARTS)
    print(f"{' '.join(names)}: {lines} lines in {len(named)} crates: {counted}")
    sys.exit(not named)


if __name__ == "__main__":
    main()
