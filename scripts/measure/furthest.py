#!/usr/bin/env python3
"""Measures how near the furthest place that reading came to is to rustc's own place of a fault.

usage: furthest.py [--deleted COUNT SEED] COMMAND PATH..

COMMAND gets the name of a file, and where it refuses an item it writes `.. no item (read as far as
LINE:COLUMN)` to standard error, as the crate's program `froesaffron` does. A PATH is a file, or a
folder whose files named `.rs` are taken. With --deleted, COUNT sources are made of the files, each
with one token deleted, which SEED draws. Of all these count those that rustc's parser refuses, and
the command by `no item`.

Each that isn't within two lines of rustc's first error is told with both lines. The last line is `N
of M within two lines`; the exit status is 0 where that is nine of ten."""
import collections
import concurrent.futures
import itertools
import json
import os
import random
import re
import subprocess
import sys
import tempfile

sys.path.append(os.path.join(os.path.dirname(os.path.abspath(__file__)), os.pardir))
import compare
import usage

# So many sources are tried at once.
PART = 100
REFUSED = re.compile(r'no item \(read as far as (\d+):\d+\)')
# Tokens, near enough that most draws are one: what is left of a file is read by real lexers.
TOKEN = re.compile(rb'''//[^\n]*|/\*.*?\*/|b?r(#*)".*?"\1|b?"(?:\\.|[^"\\])*"'''
                   rb'''|b?'(?:\\[^\n]+?|[^\\'])'|'?\w+|[^\s\w]''', re.S)


def rustc_line(path):
    """The line of the first error of rustc's parser in a file, or none where it accepts it."""
    words = ['rustc', '--edition=2021', '-Zunpretty=normal', '--error-format=json', path]
    unstable = {**os.environ, 'RUSTC_BOOTSTRAP': '1'}
    ran = subprocess.run(words, capture_output=True, text=True, errors='replace', env=unstable)
    return first_line(ran.stderr) if ran.returncode else None


def first_line(messages):
    for message in messages.splitlines():
        told = json.loads(message) if message.startswith('{') else {}
        spans = [span for span in told.get('spans', ()) if span['is_primary']]
        if told.get('level') == 'error' and spans:
            return spans[0]['line_start']
    return None


def furthest_line(command, path):
    """The line of the furthest place in a file whose item is refused, or none."""
    ran = subprocess.run([command, path], capture_output=True, text=True, errors='replace')
    found = REFUSED.search(ran.stderr)
    return int(found[1]) if ran.returncode and found else None


def lines(command, path):
    """Both lines, where both refuse the file."""
    ours = furthest_line(command, path)
    return (ours, rustc_line(path)) if ours else (None, None)


def one_deleted(draw, data):
    """The source without one of its tokens, or none where it has none."""
    tokens = [found for found in TOKEN.finditer(data) if not found[0].startswith((b'//', b'/*'))]
    if not tokens:
        return None
    found = draw.choice(tokens)
    return data[:found.start()] + data[found.end():]


def deleted(paths, seed, folder):
    """Sources with one token deleted, without end: what each is, and its file."""
    draw = random.Random(seed)
    for number in itertools.count():
        path = draw.choice(paths)
        with open(path, 'rb') as file:
            data = one_deleted(draw, file.read())
        target = os.path.join(folder, f'{number}.rs')
        if data is not None:
            with open(target, 'wb') as file:
                file.write(data)
            yield f'{path} without a token, number {number}', target


def refused(command, named, count):
    """The lines of each that both refuse, with what it is: `count` of them at most."""
    found = []
    with concurrent.futures.ThreadPoolExecutor(os.cpu_count()) as pool:
        while len(found) < count and (part := list(itertools.islice(named, PART))):
            answers = pool.map(lambda it: lines(command, it[1]), part)
            found += [(name, *pair) for (name, _), pair in zip(part, answers) if all(pair)]
    return found[:count]


def tell(found):
    """Writes what was found, and answers whether nine of ten are within two lines."""
    apart = collections.Counter(abs(ours - theirs) for _, ours, theirs in found)
    for name, ours, theirs in found:
        if abs(ours - theirs) > 2:
            print(f'{name}: read as far as line {ours}, rustc names {theirs}')
    within = sum(apart[lines] for lines in range(3))
    print(f'{apart[0]} in the same line, {apart[0] + apart[1]} within one')
    print(f'{within} of {len(found)} within two lines')
    return len(found) > 0 and within * 10 >= len(found) * 9


def main():
    is_deleted = sys.argv[1:2] == ['--deleted']
    words = usage.words(__doc__, least=5 if is_deleted else 2, options=('--deleted',))
    if not is_deleted:
        files = list(compare.sources(words[1:]))
        found = refused(os.path.abspath(words[0]), iter(zip(files, files)), len(files))
        return 0 if tell(found) else 1
    if not (words[1].isdigit() and words[2].isdigit()):
        usage.refuse(__doc__, 'COUNT and SEED are numbers')
    with tempfile.TemporaryDirectory() as folder:
        sources = deleted(list(compare.sources(words[4:])), int(words[2]), folder)
        return 0 if tell(refused(os.path.abspath(words[3]), sources, int(words[1]))) else 1


if __name__ == '__main__':
    sys.exit(main())
