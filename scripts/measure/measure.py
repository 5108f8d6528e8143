#!/usr/bin/env python3
"""Measures commands on one file: seconds of a core, user's and system's together, and peak memory. The commands run in turns, seven times each,
and the least counts, so that other work on the machine is nobody's in particular.

usage: measure.py FILE COMMAND..    each COMMAND is one word, split at blanks; it reads FILE on standard input
"""
import os, shlex, subprocess, sys

sys.path.append(os.path.join(os.path.dirname(os.path.abspath(__file__)), os.pardir))
import usage

RUNS = 7


def measure(words, path):
    """The core seconds of a run, its peak memory in MiB, and its status."""
    with open(path, "rb") as given, open(os.devnull, "wb") as taken:
        process = subprocess.Popen(words, stdin=given, stdout=taken, stderr=subprocess.DEVNULL)
        _, status, used = os.wait4(process.pid, 0)
        return used.ru_utime + used.ru_stime, used.ru_maxrss / 1024, os.waitstatus_to_exitcode(status)


def main():
    path, *commands = usage.words(__doc__, least=2)
    if not os.path.isfile(path):
        usage.refuse(__doc__, f"not there: {path}")
    size = os.path.getsize(path)
    print(f"{path}: {size / 1e6:.2f} MB, the least of {RUNS} runs in turns")
    runs = {command: [] for command in commands}
    for _ in range(RUNS):
        for command in commands:
            runs[command].append(measure(shlex.split(command), path))
    for command in commands:
        seconds, memory, status = min(runs[command])
        print(f"{command}: {seconds:.3f} s, {memory:.1f} MiB, {memory * 1048576 / size:.1f} times the input, status {status}")


main()
