#!/usr/bin/env python3
"""Asks rustc whether formatting keeps what it reads: it has to parse each output, and to make the
syntax tree of it that it makes of the input (rustc_tree.py says what doesn't count).

usage: judge.py [OPTION].. COMMAND COUNT SEED
       judge.py [OPTION].. --files COMMAND PATH..

COUNT random programs (programs.py) are drawn by SEED, or the files at PATH are taken, of folders
those named `.rs`. Programs that COMMAND or rustc refuses are passed over, and counted.

  --kinds KIND,..    these kinds of programs alone
  --without PATTERN  no program that the regular expression PATTERN is found in
  --edition YEAR     the edition, 2024 if none is given
  --minutes NUMBER   no new batch after so many minutes
  --keep FOLDER      each program that fails is written there

A failure is REFUSED, where rustc doesn't parse the output, TREE, or SPACING, where a macro is given
the same tokens, but one follows another at once that didn't, or the other way round. The smallest
of each cause are shown, made smaller. The last line is `N judged, F failed`; the exit status is 0
where some were judged and none failed."""
import bisect
import os
import re
import subprocess
import sys
import tempfile
import time

import programs
import rustc_tree
import usage
from compare import sources

BATCH = 250
# How often a program is tried while it is made smaller.
TRIES = 90
WORD = re.compile(
    rb'//[^\n]*\n|/\*.*?\*/|[bcr]*#*"(?:\\.|[^"\\])*"#*\w*|b?\'(?:\\.|[^\'\\])\'|\'\w+|r#\w+|\w+'
    rb'|::|->|=>|\.\.=|\.\.|&&|\|\||[=!<>+\-*/%^&|]=|\s+|.', re.S)
REFUSAL = re.compile(rb'(?:.*:)?(\d+):\d+: ')


def write(path, data):
    with open(path, 'wb') as it:
        it.write(data)


class Judge:
    """Programs that are judged, a batch in one file, and what came out."""

    def __init__(self, command, edition, keep):
        self.command, self.edition, self.keep = command, edition, keep
        self.room = tempfile.mkdtemp()
        self.input, self.output = f'{self.room}/in.rs', f'{self.room}/out.rs'
        self.count = dict.fromkeys(['programs', 'refused', 'not rust', 'judged'], 0)
        self.failures = []

    def put(self, texts):
        """Writes these programs as the input, each in a module, and returns the line of each."""
        lines, line, parts = [], 1, []
        for text in texts:
            lines.append(line)
            parts.append(b'mod p {\n' + text + b'\n}\n')
            line += parts[-1].count(b'\n')
        write(self.input, b''.join(parts))
        return lines

    def formatted(self, path):
        """(the text, 0), or (None, the line of the refusal)."""
        ran = subprocess.run([self.command, path], capture_output=True)
        if ran.returncode == 0:
            return ran.stdout, 0
        found = REFUSAL.match(ran.stderr)
        return None, int(found[1]) if found else 1

    def taken(self, texts, fault):
        """Those that `fault` finds no fault with: it answers with the line of the input's first
        one, or 0. What stands before a fault is good."""
        good = []
        while texts:
            lines = self.put(texts)
            line = fault()
            if not line:
                return good + texts
            at = max(bisect.bisect_right(lines, line) - 1, 0)
            good += texts[:at]
            texts = texts[at + 1:]
        return good

    def fault_of_rustc(self):
        parsed, errors = rustc_tree.ask(self.input, self.edition, 'normal')
        return 0 if parsed else max(min(line for line, _ in errors), 1)

    def batch(self, texts):
        self.count['programs'] += len(texts)
        kept = self.taken(texts, lambda: self.formatted(self.input)[1])
        self.count['refused'] += len(texts) - len(kept)
        texts = self.taken(kept, self.fault_of_rustc)
        self.count['not rust'] += len(kept) - len(texts)
        while texts:
            lines = self.put(texts)
            text, line = self.formatted(self.input)
            if text is None:
                # One that means another thing where it stands first, as what begins with `#!`.
                at = max(bisect.bisect_right(lines, line) - 1, 0)
                self.count['refused'] += 1
                texts = texts[:at] + texts[at + 1:]
                continue
            write(self.output, text)
            parsed, after = rustc_tree.ask(self.output, self.edition, 'normal')
            if parsed:
                self.count['judged'] += len(texts)
                self.compare(texts, after)
                return
            starts = [at for at, it in enumerate(text.split(b'\n'), 1) if it.startswith(b'mod p')]
            bad = {max(bisect.bisect_right(starts, line) - 1, 0) for line, _ in after}
            for at in bad:
                self.count['judged'] += 1
                self.alone(texts[at])
            texts = [it for at, it in enumerate(texts) if at not in bad]

    def compare(self, texts, after):
        """Compares the trees of these programs, all of which rustc parses, before and after."""
        before = rustc_tree.ask(self.input, self.edition, 'normal')[1]
        # What rustc prints of a tree is short, and has the tree's parentheses: where it is the
        # same, blanks aside, so is the tree.
        one, other = rustc_tree.printed(before), rustc_tree.printed(after)
        if len(one) == len(other) == len(texts):
            texts = [it for it, a, b in zip(texts, one, other) if a != b]
        if not texts:
            return
        self.put(texts)
        write(self.output, self.formatted(self.input)[0])
        one, other = (
            rustc_tree.items(rustc_tree.ask(it, self.edition)[1])[0]
            for it in (self.input, self.output))
        if not len(one) == len(other) == len(texts):
            for text in texts:
                self.alone(text)
            return
        for text, a, b in zip(texts, one, other):
            kind = rustc_tree.difference(a, b)
            if kind:
                self.fail(kind, text)

    def alone(self, text):
        """Judges a program of a batch by itself."""
        kind, why = self.verdict(text)
        if kind:
            self.fail(kind, text, why)

    def verdict(self, text):
        """How a program fails by itself, and why, or ('', '')."""
        self.put([text])
        parsed, before = rustc_tree.ask(self.input, self.edition)
        made, _ = self.formatted(self.input)
        if not parsed or made is None:
            return '', ''
        write(self.output, made)
        parsed, after = rustc_tree.ask(self.output, self.edition)
        if not parsed:
            return 'REFUSED', after[0][1]
        one, other = (rustc_tree.items(it)[0] for it in (before, after))
        if len(one) != 1 or len(other) != 1:
            return 'TREE', ''
        return rustc_tree.difference(one[0], other[0]), ''

    def file(self, path):
        """Judges a file."""
        self.count['programs'] += 1
        made, _ = self.formatted(path)
        if made is None:
            self.count['refused'] += 1
            return
        parsed, before = rustc_tree.ask(path, self.edition)
        if not parsed:
            self.count['not rust'] += 1
            return
        self.count['judged'] += 1
        write(self.output, made)
        parsed, after = rustc_tree.ask(self.output, self.edition)
        name = os.fsencode(path)
        if not parsed:
            self.fail('REFUSED', name, f'{after[0]}')
            return
        (one, head), (other, other_head) = rustc_tree.items(before), rustc_tree.items(after)
        kinds = {rustc_tree.difference(a, b) for a, b in zip(one, other)} - {''}
        if len(one) != len(other):
            kinds = {'TREE'}
        elif head != other_head and rustc_tree.heads_differ(head, other_head):
            kinds.add('TREE')
        for kind in kinds:
            self.fail(kind, name)

    def fail(self, kind, text, why=''):
        self.failures.append((kind, re.sub(r'`[^`]*`', '`_`', why), text))
        if self.keep:
            write(f'{self.keep}/{kind}-{len(self.failures)}.rs', text)

    def smaller(self, kind, text):
        """The program without tokens, or groups of them, that it fails without as well."""
        words = WORD.findall(text)
        tries, size = TRIES, max(len(words) // 2, 1)
        while size and tries > 0:
            at, found = 0, False
            while at < len(words) and tries > 0:
                rest = words[:at] + words[at + size:]
                made = b''.join(rest)
                pairs = [(b'{', b'}'), (b'(', b')'), (b'[', b']')]
                if made.strip() and all(made.count(a) == made.count(b) for a, b in pairs):
                    tries -= 1
                    if self.verdict(made)[0] == kind:
                        words, found = rest, True
                        continue
                at += 1 if size == 1 else max(size // 2, 1)
            size = size if found and size == 1 else size // 2
        return b''.join(words)

    def show(self, is_file):
        """Prints the causes, the most frequent first, with the smallest programs of each."""
        causes = {}
        for kind, why, text in self.failures:
            causes.setdefault((kind, why), []).append(text)
        for (kind, why), texts in sorted(causes.items(), key=lambda it: -len(it[1])):
            print(f'{kind} {why}: {len(texts)}')
            for text in sorted(texts, key=len)[:3]:
                shown = text if is_file else self.smaller(kind, text)
                print('   ', shown.decode(errors='replace'))


def options(words):
    """The options, by their names, and the other words."""
    given = {'--edition': '2024', '--minutes': '', '--keep': '', '--without': '', '--files': False}
    given['--kinds'] = ','.join(programs.KINDS)
    rest = []
    while words:
        word = words.pop(0)
        if word == '--files':
            given[word] = True
        elif word in given:
            if not words:
                usage.refuse(__doc__, f'nothing after {word}')
            given[word] = words.pop(0)
        else:
            rest.append(word)
    return given, rest


def main():
    names = ('--kinds', '--without', '--edition', '--minutes', '--keep', '--files')
    given, rest = options(list(usage.words(__doc__, 2, None, names)))
    kinds = given['--kinds'].split(',')
    count, seed = rest[1:] if len(rest) == 3 and not given['--files'] else ('0', '')
    if (
        not rest or not set(kinds) <= set(programs.KINDS) or not count.isdigit()
        or not given['--files'] and len(rest) != 3 or given['--files'] and len(rest) < 2
    ):
        usage.refuse(__doc__)
    if given['--keep']:
        os.makedirs(given['--keep'], exist_ok=True)
    end = time.monotonic() + 60 * float(given['--minutes'] or 'inf')
    judge = Judge(os.path.abspath(rest[0]), given['--edition'], given['--keep'])
    if given['--files']:
        for path in sources(rest[1:]):
            if time.monotonic() < end:
                judge.file(path)
    else:
        drawn, left = programs.Programs(seed), int(count)
        without = re.compile(given['--without'] or r'(?!)')
        while left > 0 and time.monotonic() < end:
            for kind in kinds:
                size = min(BATCH, left)
                texts = [drawn.program(kind) for _ in range(size)]
                judge.batch([it.encode() for it in texts if not without.search(it)])
                left -= size
    judge.show(given['--files'])
    told = judge.count
    print(f'{told["programs"]} programs, {told["refused"]} refused, {told["not rust"]} not Rust')
    print(f'{told["judged"]} judged, {len(judge.failures)} failed')
    return 1 if judge.failures or not told['judged'] else 0


if __name__ == '__main__':
    sys.exit(main())
