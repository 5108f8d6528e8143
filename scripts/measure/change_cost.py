#!/usr/bin/env python3
"""Tells what a change of crates costs to prove, in minutes of one core: they and all that stand on them, by the table of docs/GATE.md.

usage: change_cost.py CRATE..
"""
import os
import pathlib
import re
import sys

sys.path.append(os.path.join(os.path.dirname(os.path.abspath(__file__)), os.pardir))
import crates
import usage

TOP = pathlib.Path(__file__).resolve().parent.parent.parent
ROW = re.compile(r"^\| (lay_\w+) \|((?: *[\d,]* *\|)+)$", re.M)


def main():
    changed = usage.words(__doc__, least=1)
    below = crates.below()
    if missing := [crate for crate in changed if crate not in below]:
        usage.refuse(__doc__, f"no such crate: {', '.join(missing)}")
    above = []
    for crate, its in below.items():
        if crate in changed or any(other in above for other in its):
            above.append(crate)
    seconds = {crate: sum(map(int, re.findall(r"\d+", cells))) for crate, cells in ROW.findall((TOP / "docs/GATE.md").read_text())}
    print(f"{len(above)} crates, {sum(seconds.get(crate, 0) for crate in above) / 60:.0f} minutes")
    if untold := [crate for crate in above if crate not in seconds]:
        print(f"not in the table: {', '.join(untold)}")


main()
