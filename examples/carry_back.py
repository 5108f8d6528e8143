#!/usr/bin/env python3
"""Tells where in a source stands what a compiler names by its place in the laid-out text.

usage: carry_back.py SOURCE TEXT MAP LINE:COLUMN

TEXT is what `lay_fmt SOURCE` writes, and MAP what `lay_fmt --map SOURCE` does. LINE:COLUMN is a place in TEXT, both from 1, the column in characters,
as rustc tells it. What is printed is a place in SOURCE, told so too: within the token that holds the place, or else where the next one begins."""
import re
import sys


def text_of(path):
    """The bytes in which a map counts: without a byte order mark, and with each CR LF as one LF."""
    with open(path, 'rb') as file:
        return file.read().removeprefix(b'\xef\xbb\xbf').replace(b'\r\n', b'\n')


def pairs_of(path):
    """Of each line `A+L B+M` of a map its four numbers."""
    with open(path) as file:
        return [[int(number) for number in re.split('[+ ]', line)] for line in file]


def offset_of(text, line, column):
    """How many bytes stand before a place."""
    lines = text.split(b'\n')
    before = lines[line - 1].decode()[:column - 1]
    return sum(len(it) + 1 for it in lines[:line - 1]) + len(before.encode())


def place_of(text, offset):
    """The place behind so many bytes."""
    before = text[:offset].decode()
    return before.count('\n') + 1, len(before) - before.rfind('\n')


def carried(pairs, offset):
    """How many bytes of the source stand before what stands behind so many of the text."""
    start = length = 0
    for start, length, other_start, other_length in pairs:
        if offset < other_start + other_length:
            # Documentation may be spelled otherwise there, and then only its start is known.
            return start + (max(offset - other_start, 0) if length == other_length else 0)
    return start + length


def main():
    if len(sys.argv) != 5 or not re.fullmatch(r'[1-9]\d*:[1-9]\d*', sys.argv[4]):
        print('usage: carry_back.py SOURCE TEXT MAP LINE:COLUMN', file=sys.stderr)
        return 2
    source, text, pairs = text_of(sys.argv[1]), text_of(sys.argv[2]), pairs_of(sys.argv[3])
    line, column = map(int, sys.argv[4].split(':'))
    if line > text.count(b'\n') + 1:
        print(f'{sys.argv[2]} has no line {line}', file=sys.stderr)
        return 2
    print('%d:%d' % place_of(source, carried(pairs, offset_of(text, line, column))))
    return 0


if __name__ == '__main__':
    sys.exit(main())
