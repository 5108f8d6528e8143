#!/usr/bin/env python3
"""Writes the tables of src/xid.rs from Python's own: which characters begin an identifier, and which stand within one.

usage: xid.py > src/xid.rs"""
import sys
import unicodedata

MOST = 0x110000
SURROGATES = range(0xd800, 0xe000)
IN_A_LINE = 6


def ranges(holds):
    """The ranges of characters of which this holds, from the first to the last one."""
    found = []
    for code in range(MOST):
        if code in SURROGATES or not holds(chr(code)):
            continue
        if found and found[-1][1] == code - 1:
            found[-1][1] = code
        else:
            found.append([code, code])
    return found


def table(name, told, found):
    print(f'\n/// {told}\n#[rustfmt::skip]\npub static {name}: [(u32, u32); {len(found)}] = [')
    for at in range(0, len(found), IN_A_LINE):
        print('    ' + ' '.join(f'({first:#x}, {last:#x}),' for first, last in found[at:at + IN_A_LINE]))
    print('];')


if len(sys.argv) > 1:
    print(__doc__.splitlines()[2], file=sys.stderr if sys.argv[1:] != ['--help'] else sys.stdout)
    sys.exit(0 if sys.argv[1:] == ['--help'] else 2)
print(f'//! Characters of identifiers, by Unicode {unicodedata.unidata_version}: xid.py writes this file.')
table('START', 'What an identifier begins with, beside `_`.', ranges(lambda it: it != '_' and it.isidentifier()))
table('CONTINUE', 'What stands within an identifier.', ranges(lambda it: ('a' + it).isidentifier()))
