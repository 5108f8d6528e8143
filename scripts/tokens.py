#!/usr/bin/env python3
"""Builds the example under examples/tokens, which formats token streams, and tests it: what it prints
is what docs/MOVING.md shows, and the text of each file's tokens is that of the file, but for
documentation and blanks in macro calls.

usage: tokens.py [FOLDER..]

The files are those under rust/, examples/ and the folders, and the sources of the three crates that
it is built with: syn, quote and proc-macro2 of Debian's packages. It needs cargo; where one of the
packages isn't there, the status is 3, and a line names it. Else a line tells each fault, the last
two have the counts, and the status is 0 where there is none.
"""
import pathlib
import re
import subprocess
import sys

import usage

TOP = pathlib.Path(__file__).resolve().parent.parent
FOLDER = TOP / "examples/tokens"
REGISTRY = pathlib.Path("/usr/share/cargo/registry")
CRATES = ("syn", "quote", "proc-macro2")
# As many files at least have to be accepted: else something else is tested than was meant.
LEAST = 200
NOT_THERE = 3
SHOWN = re.compile(r"^```rust tokens\n(.*?)^```$", re.M | re.S)


def files(folders):
    """The sources below folders, without what cargo builds there."""
    for folder in folders:
        for path in sorted(pathlib.Path(folder).resolve().rglob("*.rs")):
            if "target" not in path.parts and path.is_file():
                yield path


def main():
    folders = usage.words(__doc__)
    missing = [name for name in CRATES if not [*REGISTRY.glob(f"{name}-[0-9]*")]]
    for name in missing:
        print(f"tokens.py: Debian's package librust-{name}-dev isn't there")
    if missing:
        return NOT_THERE
    words = ["cargo", "build", "--quiet", "--offline", "--target-dir", "target"]
    built = subprocess.run(words, cwd=FOLDER)
    if built.returncode:
        print("tokens.py: the example isn't built")
        return 1
    program = FOLDER / "target/debug/tokens"
    printed = subprocess.run([program], capture_output=True, text=True)
    if [printed.stdout] != SHOWN.findall((TOP / "docs/MOVING.md").read_text()):
        print("tokens.py: docs/MOVING.md doesn't show what the example prints:")
        print(printed.stdout, printed.stderr)
        return 1
    paths = [*files([TOP / "rust", TOP / "examples", REGISTRY, *folders])]
    # Most systems take no more than so many words.
    faults = accepted = 0
    for start in range(0, len(paths), 2000):
        words = [program, *paths[start:start + 2000]]
        ran = subprocess.run(words, stdout=subprocess.PIPE, text=True)
        print(ran.stdout, end="")
        faults += ran.returncode != 0
        counted = re.search(r"^from the tokens of files: (\d+)", ran.stdout, re.M)
        accepted += int(counted[1]) if counted else 0
    if accepted < LEAST:
        print(f"tokens.py: only {accepted} files were accepted")
    return 1 if faults or accepted < LEAST else 0


if __name__ == "__main__":
    sys.exit(main())
