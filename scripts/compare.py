#!/usr/bin/env python3
"""Runs two built commands over the same sources, and compares what they answer: exit status, standard output and standard error have to be
equal byte for byte.

usage: compare.py [--map] [--changed COUNT SEED] COMMAND COMMAND PATH..

A PATH is a file, or a folder whose files named `.rs` are taken. Each is formatted and checked by
its name, and with --map mapped too, where both commands can. With --changed, COUNT sources are made
of parts of the files with small changes, which SEED draws, and formatted from standard input, and
with --map mapped.

The last line is `N the same, M of them accepted, K not`; the exit status is 0 where all are the same."""
import concurrent.futures
import os
import random
import subprocess
import sys

import usage

SIGNS = b'{}()[]<>=!&|,;:.#\'"/*-+_a0 \n\xff'
WORDS = [b' let ', b' fn ', b'{', b'}', b'\xc3\xa9', b'\xf0\x9e\xa5\x8b', b'r#', b'/*', b'*/', b'//!', b'#![a]', b'if ', b' else ', b'?',
         b'..', b'as ', b'\r\n', b'\xef\xbb\xbf', b'where ', b'::', b'-> ', b'move ', b'=> ']


def answer(command, words, data=b''):
    ran = subprocess.run([command, *words], input=data, capture_output=True)
    return ran.returncode, ran.stdout, ran.stderr


def difference(commands, runs):
    """The first run whose answers differ, if any does, and whether the first run was accepted."""
    accepted = None
    for words, data in runs:
        answers = [answer(command, words, data) for command in commands]
        if accepted is None:
            accepted = answers[0][0] == 0
        if answers[0] != answers[1]:
            return [(status, text[:80], line[:80]) for status, text, line in answers], accepted
    return None, accepted


def sources(paths):
    for path in paths:
        if os.path.isdir(path):
            for folder, _, names in sorted(os.walk(path)):
                yield from (os.path.join(folder, name) for name in sorted(names) if name.endswith('.rs'))
        else:
            yield path


def changed(draw, files):
    """Some lines of a file, with up to two small changes."""
    with open(draw.choice(files), 'rb') as file:
        lines = file.read().split(b'\n')
    first = draw.randrange(len(lines))
    data = bytearray(b'\n'.join(lines[first:first + draw.randrange(1, 60)])[:20000])
    for _ in range(draw.randrange(3)):
        at = draw.randrange(len(data) + 1)
        kind = draw.randrange(4)
        if kind == 0:
            del data[at:at + 1]
        elif kind == 1:
            data[at:at + 1] = bytes([draw.choice(SIGNS)])
        elif kind == 2:
            data[at:at] = draw.choice([*WORDS, chr(draw.randrange(0x80, 0xd800)).encode()])
        else:
            data[at:at] = data[at // 2:at // 2 + draw.randrange(20)]
    return bytes(data)


def main():
    words = usage.words(__doc__, least=3, options=('--changed', '--map'))
    is_mapped = words[0] == '--map'
    words = words[is_mapped:]
    is_changed = words[0] == '--changed'
    if len(words) < (6 if is_changed else 3) or any(word.startswith('-') for word in words[1:]):
        usage.refuse(__doc__)
    count = seed = None
    if is_changed:
        if not (words[1].isdigit() and words[2].isdigit()):
            usage.refuse(__doc__, 'COUNT and SEED are numbers')
        count, seed, words = int(words[1]), int(words[2]), words[3:]
    commands, files = [os.path.abspath(word) for word in words[:2]], list(sources(words[2:]))
    if count is None:
        kinds = [[], ['--check'], *[['--map']] * is_mapped]
        named = [(path, [([*kind, '--', path], b'') for kind in kinds]) for path in files]
    else:
        draw = random.Random(seed)
        drawn = [changed(draw, files) for _ in range(count)]
        kinds = [[], *[['--map']] * is_mapped]
        named = [(f'source {number}', [(kind, data) for kind in kinds])
                 for number, data in enumerate(drawn)]
    same = accepted = 0
    with concurrent.futures.ThreadPoolExecutor(os.cpu_count()) as pool:
        for (name, runs), (found, is_accepted) in zip(named, pool.map(lambda it: difference(commands, it[1]), named)):
            accepted += is_accepted
            same += not found
            if found:
                print(f'{name}: {found[0]} and {found[1]}', *([runs[0][1]] if count else []))
    print(f'{same} the same, {accepted} of them accepted, {len(named) - same} not')
    return 0 if same == len(named) and named else 1


if __name__ == '__main__':
    sys.exit(main())
