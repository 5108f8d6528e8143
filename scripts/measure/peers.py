#!/usr/bin/env python3
"""Measures formatters on the same files: how many each refuses or panics on, and how many of its
texts rustc doesn't parse or a second run changes.

usage: peers.py LIST COMMAND..

LIST names a file on each line. Those that rustc doesn't parse as edition 2021 are left out. Each
COMMAND is one word, split at blanks; it reads a file on standard input and writes its text to
standard output. It refuses a file if it writes nothing and its status isn't 0.

A line is printed for each command, with its counts, and one for each file that isn't `the same`.
"""
import collections
import concurrent.futures
import os
import pathlib
import shlex
import subprocess
import sys

sys.path.append(os.path.join(os.path.dirname(os.path.abspath(__file__)), os.pardir))
import usage

# So many files are parsed by one run of rustc.
PART = 20
RUSTC = ["rustc", "--edition", "2021", "--cap-lints", "allow", "-Zparse-crate-root-only", "-"]
KINDS = ("the same", "refused", "panicked", "not parsed", "changed")


def run(words, text):
    unstable = {**os.environ, "RUSTC_BOOTSTRAP": "1"}
    return subprocess.run(words, input=text, capture_output=True, env=unstable)


def parsed(texts):
    """Whether rustc parses each text. Several are tried at once, as modules of one file."""
    if len(texts) < 2:
        return [run(RUSTC, text).returncode == 0 for text in texts]
    modules = (b"mod m%d {\n%s\n}\n" % numbered for numbered in enumerate(texts))
    if run(RUSTC, b"".join(modules)).returncode == 0:
        return [True] * len(texts)
    half = len(texts) // 2
    return parsed(texts[:half]) + parsed(texts[half:])


def first_runs(commands, paths, texts):
    """What became of each file by each command, and the texts that were written."""
    for path, text in zip(paths, texts):
        for command in commands:
            ran = run(shlex.split(command), text)
            if b"panicked at" in ran.stderr:
                yield path, command, "panicked", None
            elif ran.returncode and not ran.stdout:
                yield path, command, "refused", None
            else:
                yield path, command, "the same", ran.stdout


def measure(commands, paths):
    """What became of each of these files by each command."""
    texts = [pathlib.Path(path).read_bytes() for path in paths]
    accepted = [pair for pair, is_parsed in zip(zip(paths, texts), parsed(texts)) if is_parsed]
    runs = [*first_runs(commands, *zip(*accepted))] if accepted else []
    written = [one for one in runs if one[3] is not None]
    found = [one[:3] for one in runs if one[3] is None]
    for (path, command, kind, text), is_parsed in zip(written, parsed([one[3] for one in written])):
        if not is_parsed:
            kind = "not parsed"
        elif run(shlex.split(command), text).stdout != text:
            kind = "changed"
        found.append((path, command, kind))
    return found


def main():
    listed, *commands = usage.words(__doc__, least=2)
    if not os.path.isfile(listed):
        usage.refuse(__doc__, f"not there: {listed}")
    paths = pathlib.Path(listed).read_text().splitlines()
    parts = [paths[at:at + PART] for at in range(0, len(paths), PART)]
    counts = {command: collections.Counter() for command in commands}
    with concurrent.futures.ThreadPoolExecutor(os.cpu_count()) as pool:
        for found in pool.map(lambda part: measure(commands, part), parts):
            for path, command, kind in found:
                counts[command][kind] += 1
                if kind != "the same":
                    print(f"{path}: {kind}: {command}", flush=True)
    for command, its in counts.items():
        told = ", ".join(f"{its[kind]} {kind}" for kind in KINDS)
        print(f"{command}: of {its.total()} files {told}")


if __name__ == "__main__":
    main()
