#!/usr/bin/env python3
"""Builds and runs the generator under examples/generator, and compares what it prints with output.rs beside it, which rustc has to take.

usage: generator.py

It needs cargo and rustc. A line says what is wrong; the exit status is 0 where nothing is.
"""
import pathlib
import subprocess
import sys
import tempfile

import usage

FOLDER = pathlib.Path(__file__).resolve().parent.parent / "examples/generator"


def main():
    usage.words(__doc__, most=0)
    words = ["cargo", "run", "--quiet", "--offline", "--", "settings.txt"]
    ran = subprocess.run(words, cwd=FOLDER, stdout=subprocess.PIPE)
    if ran.returncode != 0:
        return f"generator.py: the generator ended with {ran.returncode}"
    output = FOLDER / "output.rs"
    if ran.stdout != output.read_bytes():
        return f"generator.py: {output} isn't what the generator prints"
    with tempfile.TemporaryDirectory() as folder:
        words = ["rustc", "--edition", "2021", "--crate-type", "lib", "--deny", "warnings", "--out-dir", folder, output]
        if subprocess.run(words).returncode != 0:
            return f"generator.py: rustc doesn't take {output}"
    return 0


if __name__ == "__main__":
    sys.exit(main())
