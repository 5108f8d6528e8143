#!/usr/bin/env python3
"""Counts how many lines of this formatter's texts another formatter's have too.

usage: closeness.py [--show COUNT] COMMAND PROGRAM PATH..

COMMAND is this formatter, PROGRAM the other one, such as prettyplease as prettyplease.sh builds it:
each reads standard input and writes its text. A PATH is a file, or a folder whose files named `.rs`
are taken. Files that one of the two refuses are counted and passed over. git compares the
texts, and a line is equal where git finds it in the other text. A line stands outside of macro
calls where no token between the delimiters of one is on it, nor one of these delimiters.

With --show the first COUNT places where lines outside of macro calls differ are printed.
The last two lines tell of all lines, and of those outside of macro calls, how many there are and
how many of 100 are equal. The exit status is 0 where there is one at least."""
import concurrent.futures
import os
import pathlib
import re
import subprocess
import sys
import tempfile

sys.path.insert(0, str(pathlib.Path(__file__).resolve().parent.parent))

import usage  # noqa: E402
from compare import sources  # noqa: E402

TOKEN = re.compile(
    rb'//[^\n]*|/\*(?:[^*]|\*(?!/))*\*/|b?c?r(#*)".*?"\1|[bc]?"(?:\\.|[^"\\])*"'
    rb"|b?'(?:\\[^\n]+?|[^\\'\n])'|'\w+|r#\w+|\w+|\n|.", re.S)
WORD = re.compile(rb'(?:r#)?[A-Za-z_]\w*')
# Words after which a `!` is an operator.
KEYWORDS = {b'if', b'while', b'match', b'in', b'return', b'break', b'else', b'move', b'unsafe'}
OPENERS, CLOSERS = (b'(', b'[', b'{'), (b')', b']', b'}')
CHANGE = re.compile(rb'@@ -(\d+)(?:,(\d+))? \+(\d+)(?:,(\d+))? @@')


def is_called(before):
    """Whether a delimiter after these three tokens is a macro call's: after `name!`, and after the
    name that follows `macro_rules!`."""
    if before[:2] == [b'macro_rules', b'!']:
        return True
    name = before[1]
    return before[2] == b'!' and WORD.fullmatch(name) is not None and name not in KEYWORDS


def in_macros(text):
    """The numbers of the lines on which a macro call's tokens or delimiters stand."""
    lines, line, depth, before, since = set(), 1, 0, [b''] * 3, 0
    for found in TOKEN.finditer(text):
        token = found[0]
        if since:
            lines.update(range(line, line + token.count(b'\n') + 1))
        if token in OPENERS:
            depth += 1
            if is_called(before) and not since:
                since = depth
                lines.add(line)
        elif token in CLOSERS:
            if depth == since:
                since = 0
            depth -= 1
        line += token.count(b'\n')
        if not token.isspace():
            before = [*before[-2:], token]
    return lines


def run(program, path):
    with open(path, 'rb') as source:
        ran = subprocess.run([program], stdin=source, capture_output=True)
    return ran.stdout if ran.returncode == 0 else None


def changes(one, other):
    """Of each place where they differ the first line and the number of lines of each."""
    with tempfile.TemporaryDirectory() as room:
        for name, text in (('one', one), ('other', other)):
            pathlib.Path(room, name).write_bytes(text)
        words = ['git', 'diff', '--no-index', '--no-color', '--no-ext-diff', '-U0', 'one', 'other']
        told = subprocess.run(words, cwd=room, capture_output=True).stdout
    for found in CHANGE.finditer(told):
        yield tuple(1 if it is None else int(it) for it in found.groups())


def compared(command, program, path):
    """None where one refuses; else the lines of all, those that differ, the same outside of macro
    calls, and the places there."""
    one, other = run(command, path), run(program, path)
    if one is None or other is None:
        return None
    ours, theirs, inside = one.split(b'\n')[:-1], other.split(b'\n'), in_macros(one)
    differ, places = set(), []
    for first, count, other_first, other_count in changes(one, other):
        differ.update(range(first, first + count))
        if not inside.intersection(range(first, first + max(count, 1))):
            here = ours[first - 1:first - 1 + count] if count else []
            there = theirs[other_first - 1:other_first - 1 + other_count] if other_count else []
            places.append((path, first, here, there))
    outside = [it for it in range(1, len(ours) + 1) if it not in inside]
    return len(ours), len(differ), len(outside), len(differ.difference(inside)), places


def main():
    words = usage.words(__doc__, 3, None, ('--show',))
    show = 0
    if words[0] == '--show':
        if len(words) < 5 or not words[1].isdigit():
            usage.refuse(__doc__)
        show, words = int(words[1]), words[2:]
    command, program, *paths = words
    if command.startswith('-') or program.startswith('-'):
        usage.refuse(__doc__)
    command, program = os.path.abspath(command), os.path.abspath(program)
    with concurrent.futures.ThreadPoolExecutor(os.cpu_count()) as pool:
        results = list(pool.map(lambda it: compared(command, program, it), sources(paths)))
    taken = [it for it in results if it]
    for path, line, here, there in [place for it in taken for place in it[4]][:show]:
        print(f'{path}: line {line} of the text')
        for sign, lines in (('-', here), ('+', there)):
            for text in lines:
                print(sign, text.decode(errors='replace'))
    total, differ, outside, outside_differ = (sum(it[at] for it in taken) for at in range(4))
    print(f'{len(taken)} files, {len(results) - len(taken)} refused by one of the two')
    if not outside:
        return 1
    print(f'all: {total} lines, {100 - 100 * differ / total:.2f} of 100 equal')
    equal = 100 - 100 * outside_differ / outside
    print(f'outside of macro calls: {outside} lines, {equal:.2f} of 100 equal')
    return 0


if __name__ == '__main__':
    sys.exit(main())
