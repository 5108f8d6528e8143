#!/usr/bin/env python3
"""Formats files of Rust with a built command, and shows that nothing in them changed: the output is
given back by a second run byte for byte, and `rustc` makes the same of it as of the input. What rustc
makes is its high-level representation, as it prints that (`-Zunpretty=hir`), with names resolved and
macros expanded; and where the input compiles, the output compiles as well. Comments and places in the
file aren't compared, nor braces around the body of an arm or a closure, which the layout puts and
takes away.

usage: same_items.py COMMAND FILE..

The last line is `N the same, M not`; the exit status is 0 where all are the same."""
import os
import re
import subprocess
import sys
import tempfile

import usage

RUSTC = ['rustc', '--edition', '2021', '--crate-type', 'lib', '--crate-name', 'formatted', '-A', 'warnings']


def formatted(command, data):
    ran = subprocess.run([command], input=data, capture_output=True)
    if ran.returncode != 0:
        sys.exit(f'refused: {ran.stderr.decode()}')
    return ran.stdout


# A comment that isn't documentation: with four slashes or three stars it is none.
COMMENT = rb'//(?:(?![/!])|//)[^\n]*|/\*\*/|/\*(?:(?![*!])|\*\*).*?\*/'
TOKEN = re.compile(rb'''"(?:\\.|[^"\\])*"|'(?:\\[^']*|[^'\\])'|''' + COMMENT + rb'|\w+|=>|[^\s\w]', re.S)
# What rustc makes of an attribute, and in it a place in the file.
ATTRIBUTE = re.compile(rb'^[ \t]*#!?\[attr = .*$', re.M)
SPAN = re.compile(rb'[^\s,()\[\]]*:\d+:\d+: \d+:\d+ \(#\d+\)')
LINE_OF_DOCUMENTATION = re.compile(rb'^([ \t]*)//([/!])(?!/)(.*)$', re.M)


def without_braces(tokens):
    """Without the braces around bodies of arms and closures, and without the commas behind what ends in a brace."""
    out, bodies = [], []
    for token in tokens:
        if token == b'{':
            bodies.append(out[-1] if out and out[-1] in (b'=>', b'|') else b'')
            if bodies[-1]:
                continue
        elif token == b'}':
            body = bodies.pop() if bodies else b''
            if body:
                token = b',' if body == b'=>' else b''
        if token and not (token == b',' and out and out[-1] in (b'}', b',')):
            out.append(token)
    return out


def as_attribute(line):
    """Documentation of one line as the attribute that it is: rustc prints each as it was written."""
    mark = b'#!' if line[2] == b'!' else b'#'
    said = line[3].replace(b'\\', b'\\\\').replace(b'"', b'\\"')
    return line[1] + mark + b'[doc = "' + said + b'"]'


def representation(path):
    """What rustc makes of a file, token by token, and how many errors it names."""
    ran = subprocess.run([*RUSTC, '-Zunpretty=hir', path], capture_output=True, env={**os.environ, 'RUSTC_BOOTSTRAP': '1'})
    printed = LINE_OF_DOCUMENTATION.sub(as_attribute, ran.stdout)
    printed = ATTRIBUTE.sub(lambda line: SPAN.sub(b'span', line[0]), printed)
    tokens = [token for token in TOKEN.findall(printed) if not re.match(COMMENT, token)]
    return without_braces(tokens), len(re.findall(rb'^error', ran.stderr, flags=re.M))


def compiles(path, folder):
    return subprocess.run([*RUSTC, '--emit', 'metadata', '--out-dir', folder, path], capture_output=True).returncode == 0


def is_same(command, path):
    with open(path, 'rb') as file:
        data = file.read()
    text = formatted(command, data)
    if formatted(command, text) != text:
        print(f'{path}: a second run changes the output')
        return False
    with tempfile.TemporaryDirectory() as folder:
        output = os.path.join(folder, 'formatted.rs')
        with open(output, 'wb') as file:
            file.write(text)
        before, after = representation(path), representation(output)
        both = compiles(path, folder), compiles(output, folder)
    if not before[0] or before != after or both[0] != both[1]:
        print(f'{path}: rustc makes something else of the output')
        return False
    words = 'compiles before and after' if both[0] else f'{before[1]} errors of names before and after'
    print(f'{path}: {len(data)} bytes in, {len(text)} out, {len(before[0])} tokens of items are the same; {words}')
    return True


def main():
    command, *paths = usage.words(__doc__, least=2)
    command = os.path.abspath(command)
    if missing := [path for path in (command, *paths) if not os.path.isfile(path)]:
        usage.refuse(__doc__, f"not there: {', '.join(missing)}")
    same = [is_same(command, path) for path in paths]
    print(f'{sum(same)} the same, {len(same) - sum(same)} not')
    return 0 if all(same) and same else 1


if __name__ == '__main__':
    sys.exit(main())
