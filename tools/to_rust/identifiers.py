#!/usr/bin/env python3
"""Makes the module of the cargo crate that tells which characters identifiers have.

usage: identifiers.py < LINES > identifiers.rs

Each line is one that identifiers.rs beside this prints: `start N` or `continue N`, a character at which an answer changes."""
import sys

HEAD = '''//! Made by scripts/rust.sh from what the toolchain's `unicode_ident` answers of every character: change nothing here.
//!
//! Which characters identifiers have (Unicode Standard Annex 31).
/// Whether the character may start an identifier.
#[inline]
pub fn is_xid_start(character: char) -> bool {
    is_within(&START, character)
}
/// Whether the character may continue an identifier.
#[inline]
pub fn is_xid_continue(character: char) -> bool {
    is_within(&START, character) || is_within(&INNER, character)
}
/// Whether a character lies in one of the runs, each of which begins at one character and ends before another. Those of START start
/// an identifier, and those of INNER continue one alone.
fn is_within(changes: &[u32], character: char) -> bool {
    changes.partition_point(|change| *change <= character as u32) % 2 == 1
}
'''


def without(numbers, others):
    """The changes of what lies in runs of the numbers and in no run of the others."""
    changes, lies = [], False
    for number in sorted({*numbers, *others}):
        before = lies
        lies = sum(n <= number for n in numbers) % 2 == 1 and sum(n <= number for n in others) % 2 == 0
        if lies != before:
            changes.append(number)
    return changes


def main():
    if sys.argv[1:]:
        print('usage: identifiers.py < LINES > identifiers.rs')
        sys.exit(0 if sys.argv[1:] == ['--help'] else 2)
    changes = {'start': [], 'continue': []}
    for line in sys.stdin:
        kind, number = line.split()
        changes[kind].append(int(number))
    for kind, numbers in changes.items():
        if len(numbers) < 1000 or len(numbers) % 2 or numbers != sorted(set(numbers)):
            sys.exit(f'the changes of {kind} are no runs')
    if without(changes['start'], changes['continue']):
        sys.exit('a character starts an identifier and continues none')
    print(HEAD, end='')
    for name, numbers in ('START', changes['start']), ('INNER', without(changes['continue'], changes['start'])):
        print(f'static {name}: [u32; {len(numbers)}] = [{", ".join(map(str, numbers))}];')


if __name__ == '__main__':
    main()
