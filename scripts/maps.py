#!/usr/bin/env python3
"""Looks at the maps of sources: that each pair's two ranges hold the same text, or documentation that says the same; that units come in order
and don't overlap; and that what stands in no unit is blank, a comment, or a token that a spelling may have or leave out.

usage: maps.py [--beside ORACLE] COMMAND PATH..

A PATH is a file, or a folder whose files named `.rs` are taken, or a file of cases, named `.jsonl`, whose inputs are taken. A source that COMMAND refuses is left out. The last line is
`N maps, P pairs, R refused, W wrong`; the exit status is 0 where none is wrong.

With --beside each answer to `--map` has to be that of ORACLE, the program of tools/oracle, too.

A token that a map leaves out on both sides is noticed in the text: there it is known which tokens the
layout puts in, commas at the end of a line and pairs of braces around bodies of arms and closures. So
that this doesn't grow lax, of each map one line of each kind in `NOTICED` is left out in turn, and
that has to be noticed. Only ORACLE notices a comma of a token list or of a tuple of one element that
stands where a last comma might, and both braces around one macro call or item."""
import concurrent.futures
import json
import os
import re
import subprocess
import sys

import usage
from cases import input_of
from compare import sources

# What may stand between two units of a source: white space, comments, and the optional tokens that docs/GRAMMAR.md lists.
BETWEEN = re.compile(rb'(?:\s|\xc2\x85|\xe2\x80[\x8e\x8f\xa8\xa9]|//[^\n]*|/\*.*?\*/|[,;{}|<>:]|where\b)*', re.S)
# What may stand between two units of a text: blanks, the comma behind the last part of a broken list or behind an arm, and the braces of a body.
LAID_OUT = re.compile(rb'[ \n,{}]*')
SIGNS = re.compile(rb'[,{}]')
PARTNER = {b')': b'(', b']': b'[', b'}': b'{'}
# What comes behind the last comma of a broken list or of a where clause.
BEHIND_LAST = (b')', b']', b'}', b'>', b'|', b'{')
# Tokens of which none is left out of a map unseen.
NOTICED = (b'{', b'<', b':', b';')
DOC = re.compile(rb'//[/!]|/\*[*!]|#')
# The first line, if it is one, and else nothing.
SHEBANG = re.compile(rb'(?:#!(?!\s*\[)[^\n]*)?')


def run(words, data):
    ran = subprocess.run(words, input=data, capture_output=True, timeout=600)
    return ran.returncode, ran.stdout


def normal(data):
    """The text that is lexed: without a byte order mark, and with each CR LF as one LF."""
    return data.removeprefix(b'\xef\xbb\xbf').replace(b'\r\n', b'\n')


def said(documentation):
    """What a spelling of documentation says, where that is told without cooking a string, and without blanks at the end, which a line can't hold."""
    if documentation.startswith((b'///', b'//!')):
        return documentation[3:].rstrip()
    if documentation.startswith((b'/**', b'/*!')):
        return documentation[3:-2].rstrip()
    found = re.fullmatch(rb'#\s*!?\s*\[\s*doc\s*=\s*"([^"\\]*)"\s*\]', documentation)
    return found and found.group(1).rstrip()


def are_same(unit, other):
    if unit == other or unit.removeprefix(b'r#') == other:
        return True
    if not (DOC.match(unit) and DOC.match(other)):
        return False
    one, two = said(unit), said(other)
    return one is None or two is None or one == two


def units(lines, side):
    """The ranges of one side of a map."""
    for line in lines:
        start, length = line.split(b' ')[side].split(b'+')
        yield int(start), int(start) + int(length)


def fault(text, ranges, between):
    """Why the ranges can't be the units of a text, or None."""
    end = 0
    for start, stop in [*ranges, (len(text), len(text))]:
        if start < end or stop < start or stop > len(text):
            return f'{start} to {stop}, behind {end}'
        if not between.fullmatch(text, end, start):
            return f'{text[end:start]!r} stands in no unit'
        end = stop
    return None


class Walk:
    """Along a text, with the groups that are open: of each its opener, whether that is in no unit, and whether a `=>` and a `;` stood in it."""

    def __init__(self):
        self.groups = [[b'', False, False, False]]
        self.last = [b'', b'']
        self.is_comma = False

    def sign(self, text, at):
        """Whether this comma or brace in no unit is one that the layout puts in."""
        sign = text[at:at + 1]
        if sign == b',':
            self.is_comma = True
            return text[at + 1:at + 2] == b'\n' and text[at - 1:at] not in (b' ', b'\n', b',')
        if sign == b'{':
            self.groups.append([sign, True, False, False])
            behind = self.last == [b'=', b'>'] and text[:at].endswith(b'=> ') or self.last[1] == b'|'
            return behind and not self.is_comma and text[at + 1:at + 2] == b'\n'
        return len(self.groups) > 1 and self.groups.pop()[:2] == [b'{', True] and not self.is_comma

    def unit(self, unit):
        """Whether a unit may stand here."""
        group = self.groups[-1]
        if self.is_comma and unit not in BEHIND_LAST:
            if not (group[0] == b'{' and group[2]):
                return False
            group[2] = False
        self.is_comma = False
        self.last = [self.last[1], unit]
        if self.last == [b'=', b'>']:
            group[2] = True
        elif unit == b';':
            group[3] = True
            # Within braces that aren't in the tree stands one expression.
            return not group[1]
        elif unit in PARTNER.values():
            self.groups.append([unit, False, False, False])
        elif unit in PARTNER:
            return len(self.groups) > 1 and self.groups.pop()[:2] == [PARTNER[unit], False]
        return True


def fault_laid_out(text, ranges):
    """Why the ranges can't be the units of a text that was laid out, or None."""
    walk, end = Walk(), 0
    for start, stop in ranges:
        for found in SIGNS.finditer(text, end, start):
            if not walk.sign(text, found.start()):
                return f'{text[end:start]!r} stands in no unit'
        if not walk.unit(text[start:stop]):
            return f'{text[end:stop]!r}, of which something stands in no unit'
        end = stop
    return None if len(walk.groups) == 1 and not walk.is_comma else 'a group is open at the end'


def look_at_text(text, shebang, ranges):
    """What is wrong with the units of a text, if anything is."""
    return fault(text, [shebang, *ranges], LAID_OUT) or fault_laid_out(text, ranges)


def unnoticed(text, shebang, ranges):
    """The token of a map that can be left out of it unseen, if there is one."""
    for token in NOTICED:
        at = [number for number, (start, stop) in enumerate(ranges) if text[start:stop] == token]
        if at:
            middle = at[len(at) // 2]
            if not look_at_text(text, shebang, ranges[:middle] + ranges[middle + 1:]):
                return f'{token!r} may be left out, at {ranges[middle][0]}'
    return None


def named(paths):
    """The sources, each with its name."""
    for path in sources(paths):
        with open(path, 'rb') as file:
            if path.endswith('.jsonl'):
                yield from ((f'{path}:{number}', input_of(json.loads(line))) for number, line in enumerate(file, 1))
            else:
                yield path, file.read()


def look(command, oracle, name, data):
    """Of a source: how many pairs its map has, or None where it is refused, and what is wrong with it."""
    status, text = run([command], data)
    mapped, lines = run([command, '--map'], data)
    if oracle and run([oracle, '--map'], data) != (mapped, lines):
        return 0, f'{name}: not the map that {oracle} gives'
    if mapped != status:
        return 0, f'{name}: status {mapped} for {status}'
    if status != 0:
        return None, None
    lines, source = lines.splitlines(), normal(data)
    ranges, others = list(units(lines, 0)), list(units(lines, 1))
    first, shebang = SHEBANG.match(source).span(), SHEBANG.match(text).span()
    wrong = fault(source, [first, *ranges], BETWEEN) or look_at_text(text, shebang, others) or unnoticed(text, shebang, others)
    for (start, end), (from_, to) in zip(ranges, others):
        if not wrong and not are_same(source[start:end], text[from_:to]):
            wrong = f'{source[start:end]!r} with {text[from_:to]!r}'
    return len(lines), wrong and f'{name}: {wrong}'


def main():
    words = usage.words(__doc__, least=2, options=('--beside',))
    oracle = None
    if words[0] == '--beside':
        if len(words) < 4:
            usage.refuse(__doc__)
        oracle, words = os.path.abspath(words[1]), words[2:]
    command, *paths = words
    if missing := [path for path in (command, oracle) if path and not os.access(path, os.X_OK)]:
        usage.refuse(__doc__, f"not there: {', '.join(missing)}")
    maps = pairs = refused = wrong = 0
    with concurrent.futures.ThreadPoolExecutor(os.cpu_count()) as pool:
        for count, why in pool.map(lambda it: look(command, oracle, *it), named(paths)):
            if why:
                wrong += 1
                print(why)
            elif count is None:
                refused += 1
            else:
                maps += 1
                pairs += count
    print(f'{maps} maps, {pairs} pairs, {refused} refused, {wrong} wrong')
    sys.exit(wrong != 0)


main()
