#!/usr/bin/env python3
"""Tells which functions of a crate are dear to check: of a check with `--incremental FOLDER --jobs 1` that began with an empty folder, the seconds that
passed before each module of a function was written.

usage: function_cost.py FOLDER [COUNT]    the dearest functions, twenty where no number is named

A line tells a function's seconds: all of them, those of its layout (the types that its values reach), of its code and what the borrow checker
gives, and of its proof, with the goals and the answers. The seconds of a machine that does other work hold that too.
"""
import os
import re
import sys

sys.path.append(os.path.join(os.path.dirname(os.path.abspath(__file__)), os.pardir))
import usage

# The modules that the checker makes of a function, by what they are for. Anything else is part of its proof.
PARTS = {
    "layout": {"Layout", "Kinds", "Symbol", "Key"},
    "code": {"Code", "Mir", "Lts", "View", "Reads", "Named", "Tie", "TheLink", "Statement"},
    "proof": {"Proof", "Goals", "Given", "Answers", "Invariants", "Met", "Carried"},
}
MODULE = re.compile(r"Rattle-\w+-proofs\.(.+)\.oantt")


def part_of(name):
    """The function that a module is of, and what it is for, or nothing where it is of none."""
    words = name.split(".")
    kind = None
    while len(words) > 1:
        last = words[-1].split("-")[0]
        found = next((part for part, names in PARTS.items() if last in names), None)
        if not found:
            break
        kind = kind or found
        words.pop()
    return (".".join(words), kind) if kind else None


def main():
    words = usage.words(__doc__, least=1, most=2)
    if len(words) == 2 and not words[1].isdigit() or not os.path.isdir(words[0]):
        usage.refuse(__doc__, "FOLDER is a folder, and COUNT a number")
    files = []
    for folder, _, names in os.walk(words[0]):
        if os.path.basename(folder) != "records":
            files += [(os.stat(os.path.join(folder, name)).st_mtime_ns, name) for name in names if name.endswith(".oantt")]
    files.sort()
    costs = {}
    for (before, _), (after, name) in zip(files, files[1:]):
        module = MODULE.fullmatch(name)
        found = module and part_of(module[1])
        if found:
            cost = costs.setdefault(found[0], dict.fromkeys(PARTS, 0))
            cost[found[1]] += (after - before) / 1e9
    dearest = sorted(costs.items(), key=lambda it: -sum(it[1].values()))[: int(words[1]) if len(words) == 2 else 20]
    print(f"{'all':>7} {'layout':>7} {'code':>7} {'proof':>7}  function")
    for function, cost in dearest:
        print(f"{sum(cost.values()):7.1f} {cost['layout']:7.1f} {cost['code']:7.1f} {cost['proof']:7.1f}  {function}")
    print(f"{sum(sum(cost.values()) for cost in costs.values()):7.1f} seconds of {len(costs)} functions, of {(files[-1][0] - files[0][0]) / 1e9:.1f} in all")


main()
