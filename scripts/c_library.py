#!/usr/bin/env python3
"""Builds the static library for C, crates/lay_c/out/liblay_c.a, over the libraries that `rt ci` proved and left behind, so that lay_c alone
is proved again. `rt lib` in crates/lay_c makes the same file, but proves every library below once more.

usage: c_library.py

The status is 3 where a library isn't there that the gate leaves behind, which not every toolchain does, and 1 where one is there but lay_c isn't built.
"""
import os
import shutil
import subprocess
import sys

import crates
import usage

# The exit status where there is nothing to build over, which is no fault.
NOT_THERE = 3

TOP = os.path.dirname(os.path.dirname(os.path.abspath(__file__)))
CRATE = "lay_c"


def main():
    usage.words(__doc__, most=0)
    named = crates.named()
    lower = crates.lower(CRATE)
    rlib = {name: f"{TOP}/crates/{name}/out/rlib/{name}.rlib" for name in lower}
    if missing := [name for name in lower if not os.path.isdir(rlib[name])]:
        print(f"c_library.py: rt ci makes these, and they aren't there: {' '.join(missing)}", file=sys.stderr)
        sys.exit(NOT_THERE)
    kit = os.path.dirname(os.path.dirname(os.path.realpath(shutil.which("rt"))))
    words = ["build", "--crate-name", CRATE, "src/lib.rt", "--crate-type", "staticlib", "-L", f"dependency={kit}/rlibs"]
    for name in ["std", *named[CRATE]]:
        words += ["--extern", f"{name}={rlib.get(name) or f'{kit}/rlibs/{name}.rlib'}"]
    for name in lower:
        words += ["-L", f"dependency={os.path.dirname(rlib[name])}"]
    words += ["--antt-project", f"{kit}/rattle/logic/antt-project.json", "--logic-built", f"{kit}/logic_built"]
    words += ["--toolchain", f"{kit}/toolchain", "--backend", "llvm", "--links", f"{CRATE}="]
    folder = f"{TOP}/crates/{CRATE}"
    os.makedirs(f"{folder}/out", exist_ok=True)
    built = subprocess.run([f"{kit}/bin/rattle", *words, "-o", f"out/lib{CRATE}.a"], cwd=folder, stdout=subprocess.PIPE, stderr=subprocess.STDOUT, text=True)
    if built.returncode:
        print(built.stdout)
    sys.exit(1 if built.returncode else 0)


main()
