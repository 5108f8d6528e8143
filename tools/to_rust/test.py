#!/usr/bin/env python3
"""Tests the translator: what it doesn't know has to end its run with the file and the line where it
stands, trees are offered whole, with what Rust users derive, and so are the calls that build them,
and each condition of a call is seen to.

usage: test.py"""
import glob
import os
import re
import subprocess
import sys
import tempfile

import to_rust
from passed import CHANGES

HERE = os.path.dirname(os.path.abspath(__file__))
TOP = os.path.dirname(os.path.dirname(HERE))

# Sources that are planted, each in a crate of its own beside a part that is known, the line where it isn't, and what is said.
PLANTED = [
    ('#[strange]\nfn a() {}', 1, 'the attribute strange'),
    ('#[derive(Clone, Strange)]\nstruct A;', 1, 'the derive Strange'),
    ('use std::sync::Arc;', 1, 'the path std::sync'),
    ('fn a() {\n    std::ptr::swap(b, c)\n}', 2, 'the path std::ptr'),
    ('fn a() {\n    println!("b")\n}', 2, 'the macro println'),
    ('fn a() {\n    b ⊎ c\n}', 2, 'the sign ⊎'),
    ('/* a */', 1, 'a block comment'),
    ('fn a(b: u8) -> u8\n    promises { result }\n{\n    b\n}', 2, 'the word promises'),
    ('fn a() {\n    loop\n        bound { n }\n    {}\n}', 3, 'the word bound behind loop'),
    ('fn a(b: &mut A)\n    keeps b { b.old ≡ b.new }\n{}', 2, 'the sign ≡'),
    ('fn a(b: &mut A)\n    keeps b { b.old }\n{}', 2, 'the word keeps'),
    ('opaque fn a() {}', 1, 'the word opaque before fn'),
    ('fn a(b: &[u8]) -> &str {\n    unsafe { b.get_unchecked(0) }\n}', 2, 'the word unsafe'),
    ('pub ghost fn a() {}', 1, 'what follows ghost'),
    ('use regex::Regex;', 1, 'the library regex'),
    ('fn a() {\n    regex::compile(b)\n}', 2, 'the path regex::compile'),
    ('fn a() {\n    vec![in alloc; 1, 2]\n}', 2, 'what vec! is made of'),
    ('fn a() {\n    vec![1; 2]\n}', 2, 'the macro vec'),
    ('fn a() {\n    let Some((b, c)) = d else {\n        return;\n    };\n}', 2, 'what a let with an else binds'),
    ('fn a() {\n    let Some(mut b) = c else {\n        return;\n    };\n}', 2, 'what a let with an else binds'),
    ('fn a() {\n    let A { b } = c else {\n        return;\n    };\n}', 2, 'what a let with an else binds'),
    ('pub fn a(b: u8)\n    requires { b ≡ 1 }\n{}', 2, 'what sees to the condition of a'),
    ('pub fn a(b: u8) -> Result<u8, B>\n    ensures { c }\n    requires little { b ≤ 1 }\n{}', 3,
     'what sees to the condition of a'),
    ('pub struct A;\nimpl A {\n    fn b() {}\n    pub fn c(&self)\n        requires { d }\n    {}\n}',
     5, 'what sees to the condition of A::c'),
    ('impl<T: B<C>> A<T> {\n    pub fn b()\n        requires { c }\n    {}\n}', 3,
     'what sees to the condition of A::b'),
]
# Statements, and what becomes of each.
LETS = [
    ('let Some(a) = b.c(d)? else { return e; };', 'let a = match b.c(d)? { Some(a) => a, _ => { return e; } };'),
    ("let f::A(('0', b)) = c else { break };", "let b = match c { f::A(('0', b)) => b, _ => { break } };"),
    ('let Ok(a) = b else { let Ok(c) = d else { return }; c };',
     'let a = match b { Ok(a) => a, _ => { let c = match d { Ok(c) => c, _ => { return } }; c } };'),
    ('let a = if b { c } else { d };', 'let a = if b { c } else { d };'),
    ('if let Some(a) = b { c } else { d }', 'if let Some(a) = b { c } else { d }'),
    ('if a && let Some(b) = c { d } else { e }', 'if a && let Some(b) = c { d } else { e }'),
    ('let a = (if b { c } else { d }, e);', 'let a = (if b { c } else { d }, e);'),
    ('let A { b, .. } = c; if d { e } else { f }', 'let A { b, .. } = c; if d { e } else { f }'),
]
KNOWN = '''//! A crate.
#![tactic(auto)]
ghost use Rattle.std.specs.Prelude.{◌≡◌};

/// A number.
pub fn number(of: u8) -> u8
    ensures same { result ≡ of } // and no other
{
    one(of)
}

/// The number 1. Its condition is no public call's.
fn one(of: u8) -> u8
    requires { of ≡ 1 }
{
    of
}

pub(crate) fn two(of: u8) -> u8
    requires { of ≡ 2 }
{
    of
}
'''


def translate(source, more=()):
    """What the translator says of a repository whose crate `lay_front` has a source, and what it makes of that. More files are named with their
    crates, which stand below that."""
    with tempfile.TemporaryDirectory() as top:
        below = sorted({crate for crate, _, _ in more})
        lines = [*(f'{crate}:' for crate in below), f"lay_front: {' '.join(['regex smallvec', *below])}",
                 *(f'{crate}: lay_front' for crate in to_rust.ROOTS if crate != 'lay_front')]
        with open(os.path.join(top, 'crates.txt'), 'w', encoding='utf-8') as file:
            file.write('\n'.join(lines) + '\n')
        for crate, path, text in [*((crate, 'lib.rt', source if crate == 'lay_front' else KNOWN) for crate in to_rust.ROOTS), *more]:
            os.makedirs(os.path.join(top, 'crates', crate, 'src'), exist_ok=True)
            with open(os.path.join(top, 'crates', crate, 'src', path), 'w', encoding='utf-8') as file:
                file.write(text)
        made = os.path.join(top, 'made')
        ran = subprocess.run([sys.executable, os.path.join(HERE, 'to_rust.py'), top, made], capture_output=True, text=True)
        text = None
        if ran.returncode == 0:
            with open(os.path.join(made, 'lay_front.rs'), encoding='utf-8') as file:
                text = file.read()
        return ran.returncode, ran.stderr.strip(), text


def planted_failures():
    for source, line, said in PLANTED:
        wanted = f"crates/lay_front/src/lib.rt:{line + KNOWN.count(chr(10))}: {said} isn't known"
        status, error, text = translate(KNOWN + source + '\n')
        if status == 0 or error != wanted or text is not None:
            yield f'{source!r}: {error!r} and not {wanted!r}'
    status, error, text = translate(KNOWN)
    if status != 0 or 'pub fn number(of: u8) -> u8 {' not in ' '.join(text.split()) or 'same' in text:
        yield f'what is known is not translated: {error} {text}'


def let_failures():
    for source, wanted in LETS:
        status, error, text = translate(f'{KNOWN}fn a() {{\n    {source}\n}}\n')
        made = text and text[text.index('fn a()'):]
        if status != 0 or tokens(made) != tokens(f'fn a() {{ {wanted} }}'):
            yield f'{source!r}: {error} {made!r}'


def tokens(text):
    return re.findall(r'\w+|\S', text)


def change_failures():
    """A place that is to be changed stands once, and so does its file, or nothing is made."""
    files = []
    for crate, path in CHANGES:
        with open(os.path.join(TOP, 'crates', crate, 'src', path), encoding='utf-8') as file:
            files.append((crate, path, file.read()))
    for crate, path, text in files:
        others = [file for file in files if file[1] != path]
        twice = (crate, path, text + text)
        missing = f"crates/{crate}/src/{path}, which is to be changed, isn't there"
        unknown = f"crates/{crate}/src/{path}:1: the one place of {CHANGES[crate, path][0][0]!r} isn't known"
        for more, said in ((others, missing), ([*others, twice], unknown), ([*others, (crate, path, KNOWN)], unknown)):
            status, error, made = translate(KNOWN, more)
            if status == 0 or error != said or made is not None:
                yield f'{crate}/{path}: {error!r} and not {said!r}'


def listed(path, start):
    with open(os.path.join(TOP, path), encoding='utf-8') as file:
        text = file.read()
    return set(re.findall(r'\w+', text[text.index(start) + len(start):].split('};')[0]))


def tree_failures():
    """The crate's trees have each type that lay_tree passes on."""
    ours = listed('rust/src/tree.rs', 'pub use crate::generated::lay_tree::{')
    theirs = listed('crates/lay_tree/src/lib.rt', 'pub use lay_code::{')
    if ours != theirs:
        yield f'rust/src/tree.rs and lay_tree differ in {sorted(ours ^ theirs)}'


def build_failures():
    """The crate's calls that build files stand over all that lay_build passes on but laws, and each
    has the name of the one below it."""
    ours = listed('rust/src/build.rs', 'mod raw {\n    pub use crate::generated::lay_build::{')
    with open(os.path.join(TOP, 'crates/lay_build/src/lib.rt'), encoding='utf-8') as file:
        passed_on = re.findall(r'^pub use \w+::([^;]*);', file.read(), re.M)
    theirs = {name for names in passed_on for name in re.findall(r'\w+', names) if not name.endswith('_law')}
    if ours != theirs:
        yield f'rust/src/build.rs and lay_build differ in {sorted(ours ^ theirs)}'
    with open(os.path.join(TOP, 'rust/src/build.rs'), encoding='utf-8') as file:
        calls = set(re.findall(r'^pub fn (\w+)', file.read(), re.M))
    for lacking in sorted(name for name in ours if name[0].islower() and name not in calls):
        yield f'rust/src/build.rs has no call {lacking}'


ALL = 'Clone, Debug, PartialEq, Eq'
# Types in a crate, and how they stand in the cargo crate.
TYPES = [
    ('lay_code', 'pub enum A { B }', f'#[derive({ALL})] #[non_exhaustive] pub enum A {{ B }}'),
    ('lay_code', 'pub struct A;', f'#[derive({ALL})] pub struct A;'),
    ('lay_node', '#[derive(Copy, Eq)]\npub enum Site { B }',
     '#[derive(Copy, Eq, Clone, Debug, PartialEq)] pub enum Site { B }'),
    ('lay_node', '#[derive(Debug)]\npub struct Boxed;',
     '#[derive(Clone, PartialEq, Eq)] pub struct Boxed;'),
    ('lay_text', '/// A.\n#[must_use]\npub enum A { B }',
     f'/// A. #[must_use] #[derive({ALL})] pub enum A {{ B }}'),
    ('lay_code', 'enum A { B }\npub(crate) struct C;', 'enum A { B } pub(crate) struct C;'),
    ('lay_front', 'pub struct A;', 'pub struct A;'),
]
# A public type, with what stands before it.
PUBLIC_TYPE = re.compile(r'((?:^#\[.*\]\n)*)^pub (enum|struct) (\w+)', re.M)


def derive_failures():
    """Each public type of the trees has all derives, but for those that are written by hand, and the
    enums that may grow are marked."""
    for crate, source, wanted in TYPES:
        tokens = to_rust.tree_attributes(to_rust.rust_items(to_rust.Lexer(source).run(), ()), crate)
        made = ' '.join(to_rust.text_of(tokens).split())
        if made != wanted:
            yield f'{source!r} becomes {made!r} and not {wanted!r}'
    types = set()
    generated = os.path.join(TOP, 'rust/src/generated')
    for crate in sorted(to_rust.TREE_CRATES):
        for path in [crate + '.rs', *glob.glob(f'{crate}/**/*.rs', root_dir=generated, recursive=True)]:
            with open(os.path.join(generated, path), encoding='utf-8') as file:
                found = PUBLIC_TYPE.findall(file.read())
            for attributes, kind, name in found:
                types.add(name)
                by_hand = {'Debug'} if name in to_rust.SHOWN_BY_HAND else set()
                derives = set(re.findall(r'\w+', attributes))
                grows = crate in to_rust.OPEN_CRATES and name not in to_rust.CLOSED
                is_marked = 'non_exhaustive' in derives
                if not set(to_rust.DERIVES) - by_hand <= derives or is_marked != (kind == 'enum' and grows):
                    yield f'{path}: {name} has {attributes!r}'
    for name in sorted((to_rust.CLOSED | to_rust.SHOWN_BY_HAND) - types):
        yield f'to_rust.py names {name}, which is no public type of a tree'


def condition_failures():
    """Each condition of a call that the cargo crate offers is known, and each that is known is there:
    without its entry in the list the run ends."""
    sources = to_rust.Sources(TOP)
    found = {(offering, name) for offering, name, *_ in sources.offered_conditions()}
    for offering, name in sorted(set(to_rust.CONDITIONS) ^ found):
        yield f'to_rust.py and the sources differ in the condition of {name} in {offering}'
    for left_out in sorted(to_rust.CONDITIONS):
        known = dict(to_rust.CONDITIONS)
        try:
            del to_rust.CONDITIONS[left_out]
            sources.known_conditions()
            yield f'the condition of {left_out[1]} is not asked for'
        except SystemExit as end:
            if f"what sees to the condition of {left_out[1]} isn't known" not in str(end):
                yield f'{left_out[1]}: {end}'
        finally:
            to_rust.CONDITIONS = known


def main():
    if sys.argv[1:]:
        print('usage: test.py')
        sys.exit(0 if sys.argv[1:] == ['--help'] else 2)
    failures = [
        *planted_failures(), *let_failures(), *change_failures(), *tree_failures(), *build_failures(),
        *derive_failures(), *condition_failures(),
    ]
    for failure in failures:
        print(failure)
    print(f'{len(PLANTED)} planted, {len(failures)} failures')
    sys.exit(1 if failures else 0)


if __name__ == '__main__':
    main()
