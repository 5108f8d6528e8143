#!/usr/bin/env python3
"""Lists the definitions that the contracts of a file rest on, by its imports and theirs in turn.

usage: definitions.py FILE    a file below crates/, as lay_front/src/command.rt

A line is printed for each file of definitions, in order of its crates as crates.txt has them. The last one is `N files, M lines`: comments,
imports and blank lines aren't counted.
"""
import pathlib
import re
import sys

import crates
import usage

CRATES = pathlib.Path(__file__).resolve().parent.parent / "crates"
IMPORT = re.compile(r"^(?:pub )?(?:ghost )?use Rattle\.(lay_\w+)\.([\w.]+)", re.M)
BESIDE = re.compile(r"\s*(?:$|--|(?:pub )?use )")


def file_of(crate, path):
    """The file that an import names: its path's longest beginning that is one, or none for what the toolchain makes of the sources."""
    names = path.strip(".").split(".")
    for length in range(len(names), 0, -1):
        file = CRATES / crate / ("/".join(names[:length]) + ".antt")
        if file.is_file():
            return file
    return None


def definitions(source):
    """All files of definitions that a source file imports, and that these do."""
    found, left = set(), [source]
    while left:
        for crate, path in IMPORT.findall(left.pop().read_text()):
            file = file_of(crate, path)
            if file and file not in found:
                found.add(file)
                left.append(file)
    return found


def lines_of(file):
    return sum(not BESIDE.match(line) for line in file.read_text().splitlines())


def counts(source):
    """How many files these are, and how many lines they have."""
    found = definitions(CRATES / source)
    return len(found), sum(map(lines_of, found))


def main():
    source, = usage.words(__doc__, least=1, most=1)
    if not (CRATES / source).is_file():
        usage.refuse(__doc__, f"not there: crates/{source}")
    order = [*crates.named()]
    paths = [file.relative_to(CRATES) for file in definitions(CRATES / source)]
    for path in sorted(paths, key=lambda path: (order.index(path.parts[0]), path)):
        print(path)
    print("{} files, {:,} lines".format(*counts(source)))


if __name__ == "__main__":
    main()
