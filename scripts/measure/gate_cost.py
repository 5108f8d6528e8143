#!/usr/bin/env python3
"""Runs the gate from nothing and tells what it costs for each crate, in seconds of one core: proofs, tests, must-fail edits.

usage: gate_cost.py [--anew]    runs `rt ci` with the same word, which a toolchain that keeps what passed needs

It prints the table of docs/GATE.md, the crates in the order of crates.txt, their sum, and the
dearest chain: crates of which each stands on the one before it, so that no number of cores proves
them sooner.

Every half second it looks at the processes that the gate has started, and keeps what each has used of a core when it was seen
last. So the last moment of each process is missing, a percent or two of the whole. It reads /proc, as Linux has it.
"""
import os, subprocess, sys, time

sys.path.append(os.path.join(os.path.dirname(os.path.abspath(__file__)), os.pardir))
import crates
import usage

TICK = os.sysconf("SC_CLK_TCK")
KINDS = ("proofs", "tests", "edits")
TOP = os.path.join(os.path.dirname(os.path.abspath(__file__)), os.pardir, os.pardir)


def processes():
    """The processes that run: number to parent, words, folder, seconds of a core."""
    found = {}
    for name in os.listdir("/proc"):
        if not name.isdigit():
            continue
        try:
            with open(f"/proc/{name}/stat") as file:
                fields = file.read().rpartition(")")[2].split()
            with open(f"/proc/{name}/cmdline") as file:
                words = file.read().split("\0")
            folder = os.readlink(f"/proc/{name}/cwd")
        except OSError:
            continue
        found[int(name)] = (int(fields[1]), words, folder, (int(fields[11]) + int(fields[12])) / TICK)
    return found


def part(number, found, gate):
    """The crate and the kind of work that a process below the gate serves, told by the first compiler above it."""
    place = ("other", "proofs")
    while number in found and number != gate:
        parent, words, folder, _ = found[number]
        if place[0] == "other" and "--crate-name" in words:
            kind = "edits" if "/rt-edit" in folder else "tests" if "--test" in words else "proofs"
            place = words[words.index("--crate-name") + 1], kind
        number = parent
    return place if number == gate else None


def dearest_chain(seconds):
    """The seconds and the crates of the chain whose proofs take longest."""
    chains = {}
    for crate, libraries in crates.below().items():
        total, chain = max((chains[other] for other in libraries if other in chains), default=(0, []))
        chains[crate] = total + seconds.get(crate, 0), [*chain, crate]
    return max(chains.values())


def main():
    words = usage.words(__doc__, most=1, options=("--anew",))
    gate = subprocess.Popen(["rt", "ci", *words], stdout=subprocess.DEVNULL, stderr=subprocess.DEVNULL)
    used = {}
    while gate.poll() is None:
        found = processes()
        for number in found:
            place = part(number, found, gate.pid)
            if place:
                used[number] = (place, found[number][3])
        time.sleep(0.5)
    table = {}
    for (crate, kind), seconds in used.values():
        table.setdefault(crate, dict.fromkeys(KINDS, 0))[kind] += seconds
    total, chain = dearest_chain({crate: its["proofs"] for crate, its in table.items()})
    rows = [(crate, table.pop(crate)) for crate in crates.named() if crate in table]
    rest = {kind: sum(its[kind] for its in table.values()) for kind in KINDS}
    rows.append(("compilers, tests and programs as they run", rest))
    rows.append(("all", {kind: sum(its[kind] for _, its in rows) for kind in KINDS}))
    print("| crate | proofs | tests | edits, with their ground |\n|---|---|---|---|")
    for crate, its in rows:
        print(f"| {crate} |", " | ".join(f"{its[kind]:.0f}" if its[kind] >= 0.5 else "" for kind in KINDS), "|")
    print(f"\nThat is {sum(rows[-1][1].values()) / 60:.0f} minutes of one core.")
    print(f"The dearest chain takes {total / 60:.0f}: {', '.join(chain)}.")
    sys.exit(gate.returncode)


main()
