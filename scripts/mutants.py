#!/usr/bin/env python3
"""Formats changed sources, which a seed draws from accepted ones, and looks at how each run ends: with the text, which has to be its own text at a
second run, or with a refusal, its one line, and nothing on standard output. No run may end otherwise.

usage: mutants.py COMMAND COUNT SEED PATH..

A PATH is a file, or a folder whose files named `.rs` are taken. Their items, of at most 6,000 bytes each, are what COMMAND accepts by itself of the
parts that begin with a line that isn't indented. In each of COUNT of them, drawn anew, one to three things are changed: a token is deleted, doubled,
put in the place of another, or swapped with another, or a byte is changed.

The last line is `N mutants, A accepted, R refused, W wrong`; the exit status is 0 where none is wrong."""
import concurrent.futures
import os
import random
import re
import subprocess
import sys

import usage
from compare import sources

TOKEN = re.compile(rb'"(?:[^"\\]|\\.)*"|\'(?:[^\'\\]|\\.)\'|//[^\n]*|[A-Za-z0-9_]+|\s+|.', re.S)
REFUSAL = re.compile(rb'[1-9]\d*:[1-9]\d*: (?:not UTF-8|no token|unbalanced delimiter|no item)\n')
MOST = 6000
BYTES = bytes(range(256))


def run(command, data, *words):
    ran = subprocess.run([command, *words], input=data, capture_output=True, timeout=60)
    return ran.returncode, ran.stdout, ran.stderr


def items(command, source):
    """The parts of a source that begin with a line that isn't indented, and are accepted by themselves."""
    part = b''
    for line in [*re.split(rb'(?m)^(?=[^\s})\]])', source), b'']:
        if line and len(part) + len(line) > MOST:
            part = b''
        part += line
        if part.strip() and len(part) <= MOST and run(command, part)[0] == 0:
            yield part
            part = b''


def mutant(draw, source):
    """A source with one to three changes."""
    tokens = TOKEN.findall(source)
    for _ in range(draw.randrange(1, 4)):
        solid = [place for place, token in enumerate(tokens) if not token.isspace()]
        if not solid:
            break
        place, other = draw.choice(solid), draw.choice(solid)
        kind = draw.randrange(5)
        if kind == 0:
            tokens[place] = b' '
        elif kind == 1:
            tokens[place] += b' ' + tokens[place]
        elif kind == 2:
            tokens[place] = tokens[other]
        elif kind == 3:
            tokens[place], tokens[other] = tokens[other], tokens[place]
        else:
            token = bytearray(tokens[place])
            token[draw.randrange(len(token))] = draw.choice(BYTES)
            tokens[place] = bytes(token)
    return b''.join(tokens)


def fault(command, data):
    """Whether the source was accepted, and what is wrong with how the run ended, if anything is."""
    status, text, line = run(command, data)
    if status == 4:
        return False, None if not text and REFUSAL.fullmatch(line) else 'a refusal has one line, and no text'
    if status != 0 or line:
        return False, f'status {status}, {line[:80]}'
    if run(command, text) != (0, text, b''):
        return True, 'a second run gives another text'
    return True, None


def main():
    words = usage.words(__doc__, least=4)
    command = os.path.abspath(words[0])
    if not (words[1].isdigit() and words[2].isdigit()):
        usage.refuse(__doc__, 'COUNT and SEED are numbers')
    count, draw = int(words[1]), random.Random(int(words[2]))
    accepted = []
    for path in sources(words[3:]):
        with open(path, 'rb') as file:
            source = file.read()
        accepted.extend(items(command, source))
    if not accepted:
        usage.refuse(__doc__, 'no item is accepted')
    number = taken = wrong = 0
    with concurrent.futures.ThreadPoolExecutor(os.cpu_count()) as pool:
        while number < count:
            mutants = [mutant(draw, draw.choice(accepted)) for _ in range(min(count - number, 1000))]
            for data, (is_accepted, found) in zip(mutants, pool.map(lambda it: fault(command, it), mutants)):
                taken += is_accepted and not found
                if found:
                    wrong += 1
                    print(f'{found}: {data[:400]}')
            number += len(mutants)
    print(f'{count} mutants, {taken} accepted, {count - taken - wrong} refused, {wrong} wrong')
    return 1 if wrong else 0


if __name__ == '__main__':
    sys.exit(main())
