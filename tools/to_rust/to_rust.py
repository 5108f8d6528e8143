#!/usr/bin/env python3
"""Makes the modules of the cargo crate from the proved sources: each crate becomes a module, and each of its files a file.

usage: to_rust.py TOP FOLDER

TOP is the repository, and FOLDER, which must not be there, gets the modules, with `mod.rs` as their head. The crates are those below
ROOTS by crates.txt. What is left out is what no Rust compiler reads: clauses, `ghost` members, models, laws, and the attributes,
derives and bounds that Rust doesn't have; and plain comments. Paths are changed, what `passed.py` lists,
and a `let` with an `else`, which is newer than the oldest Rust that takes the crate. Whatever isn't known
ends the run with the file and the line where it stands: a new construct is to be looked at by a person,
and never passed through. `scripts/rust.sh` calls this and lays out what was made."""
import os
import re
import sys
from dataclasses import dataclass, replace

from passed import CHANGES

# The crates whose calls the cargo crate offers. All crates below them become modules.
ROOTS = ['lay_front', 'lay_laws', 'lay_paren', 'lay_build', 'lay_items']
# Crates that hold nothing that runs.
LAWS = {'lay_form', 'lay_reparse'}
# Modules that aren't taken over: what reaches the system, which the cargo crate does by its own standard library, and what only tests use.
LEFT_OUT = {
    'lay_io': {'host', 'inputs', 'lent', 'room', 'sinks', 'stored'},
    'lay_stream': {'frames', 'slow', 'stream', 'text_sink'},
}
# Where paths of the proved sources lead in the cargo crate. The longest that fits counts.
PLACES = {
    'std::alloc': 'crate::shims',
    'std::boxed': 'crate::shims',
    'std::mem': 'core::mem',
    'std::str': 'core::str',
    'smallvec': 'crate::shims',
    'circular_buffer': 'crate::shims',
    'itoa': 'crate::shims',
    'clap': 'crate::shims',
    'unicode_ident': 'crate::generated::identifiers',
}
DROPPED_USES = {'std::marker::Model', 'thiserror::Error'}
# What a source finds without a `use`, and the cargo crate has of its own.
PRELUDE = {'Box', 'Vec'}
# The call that makes a text of bytes which are one.
CHECKED_TEXT = 'crate::shims::text'
# The call that makes a vector of an item as often as is asked for.
FILLED = 'crate::shims::filled'
CLAUSES = {'requires', 'ensures', 'invariant', 'decreases'}
# The crates of the trees and of what is built, whose public types get DERIVES, whatever the proved
# sources derive.
TREE_CRATES = {'lay_text', 'lay_piece', 'lay_node', 'lay_code',
               'lay_build_types', 'lay_build_exprs', 'lay_build'}
DERIVES = ['Clone', 'Debug', 'PartialEq', 'Eq']
# The types for which `rust/src/tree.rs` writes `Debug` by hand: they are shown as what they hold.
SHOWN_BY_HAND = {'Boxed', 'List', 'Text'}
# The enums of trees to which a version of the language may add. Rust users match them with a `_`.
OPEN_CRATES = {'lay_node', 'lay_code'}
# Those of them that are whole: each asks a question that has no more answers.
CLOSED = {'Fields', 'GivenName', 'Listed', 'PatPlace', 'PathStyle', 'Site', 'Start', 'TypePlace'}
# What the cargo crate offers: the calls of the roots, and the types of lay_tree.
OFFERED = ROOTS + ['lay_tree']
# The calls among these whose contract has a condition, which no Rust compiler sees, and what in the
# cargo crate sees to it.
CONDITIONS = {
    ('lay_build', 'expr_binary'): 'rust/src/build.rs refuses an operator that is none between values',
    ('lay_front', 'run'): 'it is hidden, and rust/src/bin hands in inputs of which none was chosen',
    ('lay_front', 'unparse'): 'that of rust/src/calls.rs asks whether the tree can be written',
    ('lay_items', 'Items::insert'): 'rust/src/items.rs asks whether the place is there',
    ('lay_items', 'Items::output'): 'rust/src/items.rs asks whether the item is there',
    ('lay_items', 'Items::remove'): 'rust/src/items.rs asks whether the item is there',
    ('lay_items', 'Items::replace'): 'rust/src/items.rs asks whether the item is there',
    ('lay_tree', 'Tokens::new'): 'unparse refuses a tree whose token lists are not balanced',
}
KEPT_ATTRIBUTES = {'inline', 'must_use'}
DROPPED_ATTRIBUTES = {'tactic', 'cycle', 'error'}
KEPT_DERIVES = {'Clone', 'Copy', 'Debug', 'PartialEq', 'Eq'}
DROPPED_DERIVES = {'Drop', 'Error'}
DROPPED_TRAITS = {'Drop', 'Model'}
MACROS = {'matches': 'matches', 'prove': 'debug_assert', 'unreachable': 'unreachable'}
KEYWORDS = set('as break const continue crate else enum false fn for if impl in let loop match mod move mut pub ref return self '
               'Self static struct super trait true type use where while'.split())
# Keywords of Rust that the proved sources don't use, or that say more than the translator looks at.
UNKNOWN_KEYWORDS = set('abstract async await become box do dyn extern final gen macro macro_rules override priv try typeof unsafe '
                       'unsized virtual yield'.split())
# Keywords that stand for a value or a type, as names do.
NAMELIKE = {'crate', 'false', 'self', 'Self', 'super', 'true'}
# The keywords that may stand directly behind a name or a value.
BEHIND_NAMES = {'as', 'else', 'for', 'if', 'in', 'where'}

WORD = re.compile(r'[A-Za-z_]\w*', re.ASCII)
RAW_STRING = re.compile(r'b?r(#*)"')
CHARACTER = re.compile(r"b?'(\\x[0-9a-fA-F]{2}|\\u\{[0-9a-fA-F_]+\}|\\.|[^\\'])'")
LIFETIME = re.compile(r"'[A-Za-z_]\w*", re.ASCII)
NUMBER = re.compile(r'\d\w*(\.\d\w*)?', re.ASCII)
CLAUSE_HEAD = re.compile(r'\*?\s+([A-Za-z_]\w*\s*)?(?=\{)', re.ASCII)
GHOST_USE = re.compile(r'\s+use\s')
GHOST_MEMBER = re.compile(r'\s+[A-Za-z_]\w*\s*[:=]\s*(?=\{)', re.ASCII)
GHOST_DEFAULT = re.compile(r'\s*=\s*(?=\{)')
SIGNS = set('!#$%&()*+,-./:;<=>?@[]^{|}')
DOCUMENTATION = re.compile(r'//(/(?!/)|!)')


class Unknown(Exception):
    """What isn't known, and the line where it stands."""

    def __init__(self, line, what):
        super().__init__(what)
        self.line = line


@dataclass(frozen=True)
class Token:
    """A token as Rust has it, but with each sign by itself, and what space stands before it."""
    kind: str
    text: str
    line: int
    space: str

    def is_sign(self, signs):
        return self.kind == 'sign' and self.text in signs

    def is_word(self, *words):
        return self.kind == 'word' and self.text in words


class Lexer:
    """Cuts a source into tokens, without clauses, ghost members and plain comments."""

    def __init__(self, text):
        self.text, self.at, self.line, self.space, self.tokens = text, 0, 1, '', []
        # Before which token each condition stands, and in which line.
        self.conditions = []

    def run(self):
        while self.at < len(self.text):
            self.step()
        return self.tokens

    def move(self, end):
        """Moves on, and answers what was passed."""
        passed = self.text[self.at:end]
        self.line += passed.count('\n')
        self.at = end
        return passed

    def skip(self, end):
        """Passes what is left out. A blank stands for it."""
        self.move(end)
        self.space = self.space or ' '

    def put(self, kind, end):
        line = self.line
        self.tokens.append(Token(kind, self.move(end), line, self.space))
        self.space = ''

    def step(self):
        text, at = self.text, self.at
        character = text[at]
        if character.isspace():
            self.move(at + 1)
            self.space = '\n' if character == '\n' else self.space or ' '
        elif text.startswith('//', at):
            end = self.line_end(at)
            if DOCUMENTATION.match(text, at):
                self.put('documentation', end)
            else:
                self.skip(end)
        elif text.startswith('/*', at):
            raise Unknown(self.line, 'a block comment')
        elif RAW_STRING.match(text, at):
            found = RAW_STRING.match(text, at)
            self.put('literal', text.index('"' + found[1], found.end()) + 1 + len(found[1]))
        elif character == '"' or text.startswith('b"', at):
            self.put('literal', self.string_end(text.index('"', at)))
        elif CHARACTER.match(text, at):
            self.put('literal', CHARACTER.match(text, at).end())
        elif LIFETIME.match(text, at):
            self.put('lifetime', LIFETIME.match(text, at).end())
        elif NUMBER.match(text, at):
            self.put('number', NUMBER.match(text, at).end())
        elif WORD.match(text, at):
            self.word(WORD.match(text, at))
        elif character in SIGNS:
            self.put('sign', at + 1)
        else:
            raise Unknown(self.line, f'the sign {character}')

    def word(self, found):
        """A word, or a clause or a ghost member, which it begins."""
        head = CLAUSE_HEAD.match(self.text, found.end())
        if found[0] in CLAUSES and head:
            if found[0] == 'requires':
                self.conditions.append((len(self.tokens), self.line))
            self.skip(self.brace_end(head.end()))
        elif found[0] == 'ghost':
            self.ghost(found.end())
        else:
            self.put('word', found.end())

    def ghost(self, at):
        """A `ghost use`, or a ghost member of a type, a trait or an impl, with the documentation and the `pub` before it. Behind the last
        field of a type no comma need stand."""
        while self.tokens and (self.tokens[-1].kind == 'documentation' and not self.tokens[-1].text.startswith('//!')
                               or self.tokens[-1].is_word('pub')):
            self.tokens.pop()
        member = GHOST_MEMBER.match(self.text, at)
        if GHOST_USE.match(self.text, at):
            return self.skip(self.text.index(';', at) + 1)
        if not member:
            raise Unknown(self.line, 'what follows ghost')
        end = self.brace_end(member.end())
        default = GHOST_DEFAULT.match(self.text, end)
        if default:
            end = self.brace_end(default.end())
        self.skip(end + 1 if self.text[end] in ',;' else end)

    def line_end(self, at):
        end = self.text.find('\n', at)
        return len(self.text) if end < 0 else end

    def string_end(self, at):
        """The place behind the string that begins at the quote."""
        at += 1
        while self.text[at] != '"':
            at += 2 if self.text[at] == '\\' else 1
        return at + 1

    def brace_end(self, at):
        """The place behind the partner of the brace at a place, in the language of clauses: it has strings, `--` comments and, where a
        clause is an expression of Rust, `//` comments."""
        depth = 0
        while True:
            if self.text[at] == '"':
                at = self.string_end(at)
                continue
            if self.text.startswith('--', at) or self.text.startswith('//', at):
                at = self.line_end(at)
            depth += {'{': 1, '}': -1}.get(self.text[at], 0)
            at += 1
            if depth == 0:
                return at


def close_of(tokens, at):
    """The place behind the partner of the bracket at a place."""
    depth = 0
    while True:
        if tokens[at].is_sign('([{'):
            depth += 1
        elif tokens[at].is_sign(')]}'):
            depth -= 1
        at += 1
        if depth == 0:
            return at


def end_of(tokens, at, signs):
    """The place of the first of some signs."""
    while not tokens[at].is_sign(signs):
        at += 1
    return at


def is_name(token):
    return token.kind == 'word' and (token.text not in KEYWORDS or token.text in NAMELIKE)


def is_item_start(before):
    """Whether an item may begin behind a token."""
    return before is None or before.kind == 'documentation' or before.is_sign(';}]')


def known_words(tokens):
    """Stops at a word that isn't known: one of the keywords that the proved sources don't use, or one that stands where Rust has no word."""
    before, at = None, 0
    while at < len(tokens):
        token = tokens[at]
        if token.is_sign('#') and at + 1 < len(tokens) and tokens[at + 1].is_sign('[!'):
            # An attribute: what follows it stands as at the beginning.
            before, at = None, close_of(tokens, end_of(tokens, at, '['))
            continue
        if token.is_word('pub') and tokens[at + 1].is_sign('('):
            before, at = None, close_of(tokens, at + 1)
            continue
        if token.kind == 'word':
            is_behind = before is not None and (is_name(before) or before.is_sign(')') or before.kind in ('literal', 'number'))
            if token.text in UNKNOWN_KEYWORDS or (is_behind and is_name(token)):
                raise Unknown(token.line, f'the word {token.text}')
            if before is not None and is_name(before) and not is_name(token) and token.text not in BEHIND_NAMES:
                raise Unknown(before.line, f'the word {before.text} before {token.text}')
            if before is not None and before.is_word('loop'):
                raise Unknown(token.line, f'the word {token.text} behind loop')
        before = token
        at += 1


def is_law(tokens, at):
    """Whether a function begins here that is there for its clauses alone: no parameter, no result and no body."""
    shape = tokens[at:at + 6]
    return len(shape) == 6 and shape[0].is_word('fn') and ''.join(token.text for token in shape[2:]) == '(){}'


def law_names(tokens):
    return {tokens[at + 1].text for at in range(len(tokens)) if is_law(tokens, at)}


def attribute(tokens, at):
    """What stays of the attribute at a place, and the place behind it."""
    opening = end_of(tokens, at, '[')
    end = close_of(tokens, opening)
    name = tokens[opening + 1]
    if name.text == 'derive':
        kept = []
        for token in tokens[opening + 3:end - 2]:
            if token.kind == 'word' and token.text not in KEPT_DERIVES | DROPPED_DERIVES:
                raise Unknown(token.line, f'the derive {token.text}')
            if token.text in KEPT_DERIVES:
                kept += [token, replace(token, kind='sign', text=',')]
        return (tokens[at:opening + 3] + kept + tokens[end - 2:end] if kept else []), end
    if name.text in KEPT_ATTRIBUTES:
        return tokens[at:end], end
    if name.text in DROPPED_ATTRIBUTES:
        return [], end
    raise Unknown(name.line, f'the attribute {name.text}')


def dropped_impl(tokens, at):
    """The place behind the impl here, if it is one of a trait that Rust doesn't have, or whose work Rust does by itself."""
    body = end_of(tokens, at, '{')
    head = tokens[at:body]
    target = next((place for place, token in enumerate(head) if token.is_word('for')), 0)
    if target and head[target - 1].is_word(*DROPPED_TRAITS):
        return close_of(tokens, body)
    return None


def without_documentation(out):
    """Takes away the documentation, the attributes and the `pub` of an item that is left out."""
    while out and (out[-1].is_word('pub') or out[-1].kind == 'documentation' and out[-1].text.startswith('///') or out[-1].is_sign(']')):
        if out[-1].is_sign(']'):
            while not out[-1].is_sign('#'):
                out.pop()
        out.pop()


def rust_items(tokens, left_out):
    """Without laws, the modules that are left out, impls and attributes that Rust doesn't know, and `Drop` as a bound."""
    out, at = [], 0
    while at < len(tokens):
        token = tokens[at]
        before = out[-1] if out else None
        if token.is_sign('#'):
            kept, at = attribute(tokens, at)
            out += kept
        elif is_law(tokens, at):
            without_documentation(out)
            at += 6
        elif token.is_word('impl') and is_item_start(before) and dropped_impl(tokens, at):
            without_documentation(out)
            at = dropped_impl(tokens, at)
        elif token.is_word('mod') and tokens[at + 1].text in left_out:
            without_documentation(out)
            at = end_of(tokens, at, ';') + 1
        elif token.is_word('Drop') and before is not None and before.is_sign(':+'):
            while out[-1].is_sign(':+'):
                out.pop()
            at += 1
        else:
            out.append(token)
            at += 1
    return out


def last_derives(out):
    """Takes the derives behind which an item stands away, and answers the names in them."""
    names, others = [], []
    while out and out[-1].is_sign(']'):
        start = max(at for at, token in enumerate(out) if token.is_sign('#'))
        attribute_tokens = out[start:]
        del out[start:]
        if attribute_tokens[2].text == 'derive':
            names += [token.text for token in attribute_tokens[3:] if token.kind == 'word']
        else:
            others = attribute_tokens + others
    out += others
    return names


def attribute_of(text, line):
    """An attribute without space in it, on a line of its own."""
    return [Token('item', f'#[{text}]', line, '\n')]


def tree_attributes(tokens, crate):
    """With the derives of public types of trees, and with a mark at the enums among them to which the
    language may add."""
    if crate not in TREE_CRATES:
        return tokens
    out = []
    for at, token in enumerate(tokens):
        if token.is_word('pub') and tokens[at + 1].is_word('enum', 'struct'):
            name = tokens[at + 2].text
            derives = last_derives(out)
            derives += [added for added in DERIVES if added not in derives]
            derives = [kept for kept in derives if kept != 'Debug' or name not in SHOWN_BY_HAND]
            out += attribute_of(f"derive({', '.join(derives)})", token.line)
            if tokens[at + 1].is_word('enum') and crate in OPEN_CRATES and name not in CLOSED:
                out += attribute_of('non_exhaustive', token.line)
        out.append(token)
    return out


def leaves(tokens, at, path):
    """The paths of a use tree, each with the name that `as` gives it, and the place behind the tree."""
    while True:
        if tokens[at].is_sign('{'):
            found, at = [], at + 1
            while not tokens[at].is_sign('}'):
                more, at = leaves(tokens, at, path)
                found += more
                at += tokens[at].is_sign(',')
            return found, at + 1
        path = path + [tokens[at].text]
        at += 1
        if tokens[at].is_sign(':'):
            at += 2
        elif tokens[at].is_word('as'):
            return [(path, tokens[at + 1].text)], at + 2
        else:
            return [(path, None)], at


def listed(names):
    return names[0] if len(names) == 1 else f"{{{', '.join(names)}}}"


class Paths:
    """Where paths lead, in a file of one crate."""

    def __init__(self, crate, crates, laws):
        self.crate, self.crates, self.laws = crate, crates, laws

    def place(self, path, line):
        """The path in the cargo crate."""
        first = path[0]
        if first == 'crate':
            return ['crate', 'generated', self.crate] + path[1:]
        if first in self.crates:
            return ['crate', 'generated'] + path
        for count in (3, 2, 1):
            place = PLACES.get('::'.join(path[:count]))
            if place:
                return place.split('::') + path[count:]
        if first in ('std', 'core', 'alloc'):
            raise Unknown(line, f"the path {'::'.join(path[:2])}")
        return path

    def is_dropped(self, path):
        """Whether a use is of what isn't taken over."""
        if '::'.join(path) in DROPPED_USES or path[0] in LAWS or path[-1] in self.laws:
            return True
        below = self.crate if path[0] == 'crate' else path[0]
        inner = path[1:] if path[0] == 'crate' or path[0] in self.crates else path
        below = below if below in self.crates else self.crate
        return bool(inner) and inner[0] in LEFT_OUT.get(below, ())

    def use(self, tokens, at):
        """The uses that stand for the one at this place, and the place behind it."""
        line = tokens[at].line
        found, end = leaves(tokens, at + 1, [])
        parents = {}
        for path, name in found:
            if path[-1] == 'self':
                path, name = path[:-1], name
            if path[0] in self.foreign():
                raise Unknown(line, f'the library {path[0]}')
            if not self.is_dropped(path):
                path = self.place(path, line)
                parents.setdefault('::'.join(path[:-1]), []).append(path[-1] + (f' as {name}' if name else ''))
        return [f"use {parent + '::' if parent else ''}{listed(names)};" for parent, names in parents.items()], end + 1

    def foreign(self):
        """Libraries that are known by name and have no place in the cargo crate."""
        return self.libraries - {path.split('::')[0] for path in PLACES} - {path.split('::')[0] for path in DROPPED_USES}

    libraries = frozenset()


def rust_paths(tokens, paths):
    """With each path as it is in the cargo crate, and macros by their names in Rust."""
    out, at = [], 0
    while at < len(tokens):
        token = tokens[at]
        if token.is_word('use'):
            uses, at = paths.use(tokens, at)
            is_public = bool(out) and out[-1].is_word('pub')
            if is_public:
                out.pop()
            for number, use in enumerate(uses):
                out.append(Token('item', ('pub ' if is_public else '') + use, token.line, '\n'))
            continue
        is_inner = len(out) > 1 and out[-1].is_sign(':') and out[-2].is_sign(':')
        if token.kind == 'word' and not is_inner and is_path(tokens, at):
            path = [token.text]
            while is_path(tokens, at):
                path.append(tokens[at + 3].text)
                at += 3
            if path[0] in LAWS or path[0] in paths.foreign():
                raise Unknown(token.line, f'the path {"::".join(path)}')
            out.append(replace(token, text='::'.join(paths.place(path, token.line))))
        elif token.kind == 'word' and is_macro(tokens, at):
            if token.text not in MACROS:
                raise Unknown(token.line, f'the macro {token.text}')
            out.append(replace(token, text=MACROS[token.text]))
        else:
            out.append(token)
        at += 1
    return out


def is_path(tokens, at):
    """Whether `::` and a word follow."""
    follows = tokens[at + 1:at + 4]
    return len(follows) == 3 and follows[0].is_sign(':') and follows[1].is_sign(':') and follows[2].kind == 'word'


def is_macro(tokens, at):
    follows = tokens[at + 1:at + 3]
    return len(follows) == 2 and follows[0].is_sign('!') and not follows[0].space and follows[1].is_sign('([{') and not follows[1].space


def checked_texts(tokens):
    """The bytes that a proof knows to be a text become a text by one more look at them, so that the crate has no `unsafe`."""
    wanted = 'unsafe{std::str::from_utf8_unchecked('
    out, at = [], 0
    while at < len(tokens):
        head = tokens[at:at + 10]
        if token_text(head) == wanted:
            close = close_of(tokens, at + 9)
            out += [replace(head[0], text=CHECKED_TEXT), *tokens[at + 9:close]]
            if not tokens[close].is_sign('}'):
                raise Unknown(tokens[close].line, 'what follows from_utf8_unchecked')
            at = close + 1
        else:
            out.append(tokens[at])
            at += 1
    return out


def filled_vectors(tokens):
    """`vec![in alloc; item; count]` becomes a call."""
    out, at = [], 0
    while at < len(tokens):
        if token_text(tokens[at:at + 4]) == 'vec![in':
            open_at, close = at + 2, close_of(tokens, at + 2) - 1
            if sum(token.is_sign(';') for token in tokens[open_at:close]) != 2:
                raise Unknown(tokens[at].line, 'what vec! is made of')
            inside = [replace(token, text=',') if token.is_sign(';') else token for token in tokens[at + 4:close]]
            out += [replace(tokens[at], text=FILLED), replace(tokens[open_at], text='(', space=''), *inside, replace(tokens[close], text=')')]
            at = close + 1
        else:
            out.append(tokens[at])
            at += 1
    return out


def bound_names(tokens):
    """The names that a pattern of words, literals, parentheses and commas binds, or nothing where it has other parts."""
    names = []
    for token, follows in zip(tokens, [*tokens[1:], None]):
        if token.kind == 'literal' or token.is_sign('(),:'):
            continue
        if not is_name(token):
            return []
        if token.text[0].islower() and not (follows and follows.is_sign('(:')):
            names.append(token)
    return names


def let_else_parts(tokens, at):
    """Of the `let` at a place its pattern, its value and its `else` block, and the place behind it; or nothing where it has no `else`."""
    equals = at + 1
    while not tokens[equals].is_sign('=;'):
        equals = close_of(tokens, equals) if tokens[equals].is_sign('([{') else equals + 1
    end = equals
    while not tokens[end].is_sign(';') and not tokens[end].is_word('else'):
        # The `else` of an `if` belongs to that.
        if tokens[end].is_word('if', 'match'):
            return None
        end = close_of(tokens, end) if tokens[end].is_sign('([{') else end + 1
    if tokens[end].is_sign(';'):
        return None
    close = close_of(tokens, end + 1)
    return tokens[at + 1:equals], tokens[equals + 1:end], tokens[end + 1:close], close + 1


def matched_lets(tokens):
    """`let PATTERN = value else { .. };` becomes a `match`, since Rust has it no sooner than 1.65."""
    out, at = [], 0
    while at < len(tokens):
        token = tokens[at]
        is_statement = token.is_word('let') and not (out and (out[-1].is_word('if', 'while') or out[-1].is_sign('&')))
        parts = let_else_parts(tokens, at) if is_statement else None
        if parts is None:
            out.append(token)
            at += 1
            continue
        pattern, value, other, at = parts
        names = bound_names(pattern)
        if len(names) != 1:
            raise Unknown(token.line, 'what a let with an else binds')
        name = replace(names[0], space=' ')

        def sign(text):
            return replace(token, kind='sign', text=text, space=' ')

        arrow = [sign('='), replace(sign('>'), space='')]
        out += [token, name, sign('='), replace(token, text='match', space=' '), *value, sign('{')]
        out += [*pattern, *arrow, name, sign(','), replace(token, text='_', space=' '), *arrow, *matched_lets(other), sign('}'), sign(';')]
    return out


def changed(tokens, changes):
    """With the changes that a file of the cargo crate has beside the translation."""
    for before, after in changes:
        wanted = texts(Lexer(before).run())
        places = [at for at in range(len(tokens)) if texts(tokens[at:at + len(wanted)]) == wanted]
        if len(places) != 1:
            raise Unknown(1, f'the one place of {before!r}')
        tokens = tokens[:places[0]] + Lexer(after).run() + tokens[places[0] + len(wanted):]
    return tokens


def texts(tokens):
    return [token.text for token in tokens]


def public_calls(tokens, conditions):
    """The public calls before whose bodies conditions stand, each with the type that it belongs to, or
    none, and the line of the condition."""
    for end, line in conditions:
        start = next((at for at in reversed(range(end)) if tokens[at].is_word('fn')), None)
        if start is None or any(token.is_sign('{') for token in tokens[start:end]):
            continue
        if tokens[start - 1].is_word('pub'):
            yield impl_type(tokens, start), tokens[start + 1].text, line


def impl_type(tokens, at):
    """The type of the impl in which a place stands, if it stands in one."""
    depth = 0
    while depth >= 0:
        at -= 1
        if at < 0:
            return None
        depth += tokens[at].is_sign('}') - tokens[at].is_sign('{')
    while at >= 0 and not tokens[at].is_word('impl'):
        if tokens[at].is_sign(';}'):
            return None
        at -= 1
    at += 1
    if tokens[at].is_sign('<'):
        depth = 0
        while depth or not is_name(tokens[at]):
            depth += tokens[at].is_sign('<') - tokens[at].is_sign('>')
            at += 1
    return tokens[at].text


def passed_on(tokens):
    """The paths that a crate's `pub use`s pass on, each with the name that it has there."""
    for at in range(1, len(tokens)):
        if tokens[at].is_word('use') and tokens[at - 1].is_word('pub'):
            for path, name in leaves(tokens, at + 1, [])[0]:
                yield path, name or path[-1]


def public_modules(tokens):
    return {name.text for public, mod, name in zip(tokens, tokens[1:], tokens[2:])
            if public.is_word('pub') and mod.is_word('mod')}


def token_text(tokens):
    return ''.join(token.text for token in tokens)


def text_of(tokens):
    """The source, with the space that stood before each token."""
    out, before = [], None
    for token in tokens:
        is_wordlike = before is not None and before.kind != 'sign' and token.kind != 'sign'
        space = token.space or (' ' if is_wordlike else '')
        out.append('\n' if before is not None and (before.kind in ('documentation', 'item') or token.kind == 'documentation') else space)
        out.append(token.text)
        before = token
    return ''.join(out).strip() + '\n'


def with_head(tokens, path):
    """With the note on where the file comes from, and the uses of what the proved sources have without one."""
    at = 0
    while at < len(tokens) and tokens[at].text.startswith('//!'):
        at += 1
    note = [Token('documentation', f'//! Made by scripts/rust.sh from {path}, which is proved: change that.', 0, '\n')]
    if at:
        note.append(Token('documentation', '//!', 0, '\n'))
    used = sorted({word for token in tokens if token.kind == 'word' for word in PRELUDE & {token.text.split('::')[0]}})
    uses = [Token('item', f"use crate::shims::{listed(used)};", 0, '\n')] if used else []
    return note + tokens[:at] + uses + tokens[at:]


class Sources:
    """The sources below the roots, and what all of them together say."""

    def __init__(self, top):
        self.top = top
        self.uses = {}
        with open(os.path.join(top, 'crates.txt'), encoding='utf-8') as lines:
            for line in lines:
                head, _, rest = line.split('#')[0].partition(':')
                if head.strip():
                    self.uses[head.split()[0]] = rest.split()
        self.crates = []
        for root in ROOTS:
            self.add(root)
        Paths.libraries = frozenset(name for uses in self.uses.values() for name in uses if name not in self.uses)
        self.tokens = {}
        self.conditions = {}
        for crate in self.crates:
            self.read(crate)
        for crate, path in CHANGES:
            if crate in self.crates and (crate, path) not in self.tokens:
                sys.exit(f"crates/{crate}/src/{path}, which is to be changed, isn't there")
        self.known_conditions()
        self.laws = {name for tokens in self.tokens.values() for name in law_names(tokens)}
        for crate in LAWS & set(self.uses):
            self.laws |= self.laws_of(crate)

    def add(self, crate):
        """Adds a crate behind those below it that hold what runs."""
        for below in self.uses[crate]:
            if below in self.uses and below not in self.crates and below not in LAWS:
                self.add(below)
        if crate not in self.crates:
            self.crates.append(crate)

    def files(self, crate):
        root = os.path.join(self.top, 'crates', crate, 'src')
        for folder, _, names in sorted(os.walk(root)):
            for name in sorted(names):
                path = os.path.relpath(os.path.join(folder, name), root)
                if name.endswith('.rt') and re.split(r'[/.]', path)[0] not in LEFT_OUT.get(crate, ()):
                    yield path

    def lexed(self, crate, path):
        return self.lexer(crate, path).run()

    def lexer(self, crate, path):
        with open(os.path.join(self.top, 'crates', crate, 'src', path), encoding='utf-8') as file:
            return Lexer(file.read())

    def read(self, crate):
        for path in self.files(crate):
            with naming(crate, path):
                lexer = self.lexer(crate, path)
                tokens = lexer.run()
                self.conditions[crate, path] = list(public_calls(tokens, lexer.conditions))
                tokens = filled_vectors(checked_texts(tokens))
                known_words(tokens)
                self.tokens[crate, path] = tokens

    def home(self, crate, name):
        """The crate that has what another passes on under a name, and its name there."""
        for path, given in passed_on(self.tokens[crate, 'lib.rt']):
            if given == name and path[0] in self.crates:
                return self.home(path[0], path[-1])
        return crate, name

    def offered_conditions(self):
        """The calls with conditions that the cargo crate offers: the crate that offers it, its name
        there, and where it stands."""
        for offering in OFFERED:
            if offering not in self.crates:
                continue
            head = self.tokens[offering, 'lib.rt']
            homes = {self.home(offering, name): name for _, name in passed_on(head)}
            modules = public_modules(head)
            for (crate, path), calls in self.conditions.items():
                for of, call, line in calls:
                    name = homes.get((crate, of or call))
                    module = re.split(r'[/.]', path)[0]
                    if name is None and crate == offering and module in modules | {'lib'}:
                        name = of or call
                    if name is not None:
                        yield offering, f'{name}::{call}' if of else name, crate, path, line

    def known_conditions(self):
        """Stops at a call that the cargo crate offers and that has a condition of which it isn't known
        what sees to it."""
        for offering, name, crate, path, line in self.offered_conditions():
            if (offering, name) not in CONDITIONS:
                with naming(crate, path):
                    raise Unknown(line, f'what sees to the condition of {name}')

    def laws_of(self, crate):
        found = set()
        for path in self.files(crate):
            with naming(crate, path):
                found |= law_names(self.lexed(crate, path))
        return found

    def translated(self, crate, path):
        with naming(crate, path):
            tokens = matched_lets(rust_items(self.tokens[crate, path], LEFT_OUT.get(crate, ())))
            tokens = tree_attributes(tokens, crate)
            tokens = rust_paths(tokens, Paths(crate, self.crates, self.laws))
            tokens = changed(tokens, CHANGES.get((crate, path), ()))
            return text_of(with_head(tokens, f'crates/{crate}/src/{path}'))


class naming:
    """Names the file in which something isn't known."""

    def __init__(self, crate, path):
        self.path = f'crates/{crate}/src/{path}'

    def __enter__(self):
        return self

    def __exit__(self, kind, error, trace):
        if kind is Unknown:
            sys.exit(f"{self.path}:{error.line}: {error} isn't known")
        if kind in (IndexError, ValueError):
            sys.exit(f"{self.path}: a bracket or a quote has no partner")


def main():
    if len(sys.argv) != 3 or sys.argv[1].startswith('-'):
        print('usage: to_rust.py TOP FOLDER')
        sys.exit(0 if sys.argv[1:] == ['--help'] else 2)
    top, folder = sys.argv[1:]
    sources = Sources(top)
    made = {(crate, path): sources.translated(crate, path) for crate, path in sources.tokens}
    for (crate, path), text in made.items():
        target = os.path.join(folder, crate + '.rs' if path == 'lib.rt' else f'{crate}/{path[:-3]}.rs')
        os.makedirs(os.path.dirname(target), exist_ok=True)
        with open(target, 'w', encoding='utf-8') as file:
            file.write(text)
    with open(os.path.join(folder, 'mod.rs'), 'w', encoding='utf-8') as file:
        file.write('//! The proved sources without their contracts, one module for each crate.\npub mod identifiers;\n')
        file.writelines(f'pub mod {crate};\n' for crate in sorted(sources.crates))


if __name__ == '__main__':
    main()
