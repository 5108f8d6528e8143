"""What rustc makes of a file: whether it parses, and the syntax tree, in a form in which two can be
compared that differ by their layout alone.

Stable rustc is asked for its tree before expansion, which RUSTC_BOOTSTRAP allows; RUSTC in the
environment names another one. The tree is what rustc's `Debug` prints. In the comparison these
don't count: places, numbers of nodes and token streams of nodes; empty statements; how
documentation is spelled, in token lists too, and blanks at the end of its one line; a `where` or
`:` with nothing after it; a bar before a pattern; braces around the one expression that is the body
of an arm or a closure; whether a `,` or `;` of a token list follows at once, and what follows them.
Parentheses count."""
import json
import os
import re
import subprocess

RUSTC = os.environ.get('RUSTC', 'rustc')

# Places, as rustc prints them.
SPAN = re.compile(
    rb'(?:<[^<>\n]*>|[^\s()\[\]{}",]*\.rs):\d+:\d+: \d+:\d+ \(#\d+\)|no-location \(#\d+\)')
# Fields that hold token streams of nodes, places or numbers alone.
STREAMS = re.compile(
    rb'\n *tokens: (?:None|Some\(\n *LazyAttrTokenStream\(.*\),\n *\)),(?=\n)')
PLACES = re.compile(
    rb'\n *(?:\w*span\w*|id|colon_sp|eq_span): '
    rb'(?:@|None|Some\(\n *@,\n *\)|NodeId\(\d+\)|AttrId\(\d+\)),(?=\n)')
INDENT = re.compile(rb'\n +')
BLANKS = re.compile(rb'\s+')
# A token of what `Debug` prints.
TOKEN = re.compile(
    r'"(?:[^"\\]|\\.)*"|[{}()\[\],]|\w+: |(?:\{\{root\}\}|[^\s{}()\[\],"])+|\{\{root\}\}')
ESCAPE = re.compile(r'\\(?:x([0-9a-fA-F]{2})|u\{([0-9a-fA-F_]+)\}|\n\s*|(.))', re.S)
PLAIN = {'n': '\n', 't': '\t', 'r': '\r', '0': '\0', '\\': '\\', '"': '"', "'": "'"}
# Tokens of a list after which no macro sees whether the next one follows at once.
WORDS = ('Ident', 'NtIdent', 'Literal', 'Lifetime', 'NtLifetime', 'DocComment')
SEPARATORS = ('Comma', 'Semi')
DROPPED = {
    'id', 'tokens', 'has_where_token', 'colon_span', 'colon_sp', 'lazy_tokens',
    'could_be_bare_literal',
}


def ask(path, edition, what='ast-tree'):
    """(True, what rustc prints) or (False, [(line, message), ..]). `what` may be 'normal', for the
    source text that rustc's own printer makes of the tree."""
    environment = dict(os.environ, RUSTC_BOOTSTRAP='1', RUST_MIN_STACK='67108864')
    words = ['--edition', edition, '--error-format=json', '--crate-type', 'lib']
    command = [RUSTC, *words, '-Zunpretty=' + what, path]
    ran = subprocess.run(command, capture_output=True, env=environment)
    if ran.returncode == 0:
        return True, ran.stdout
    errors = []
    for row in ran.stderr.splitlines():
        try:
            message = json.loads(row)
        except ValueError:
            continue
        if message.get('level', '').startswith('error'):
            lines = [it['line_start'] for it in message.get('spans', []) if it['is_primary']]
            errors += [(line, message['message']) for line in lines[:1]]
    return False, errors or [(0, f'rustc ends with {ran.returncode}: {ran.stderr[-300:]!r}')]


def items(tree):
    """The text of each item of a file's tree, without places and numbers, and that of what stands
    before them."""
    tree = PLACES.sub(b'', SPAN.sub(b'@', STREAMS.sub(b'', tree)))
    tree = tree.replace(b'JointHidden', b'Alone')
    tree = tree.replace(b'has_where_token: true', b'has_where_token: false')
    parts = re.split(rb'\n        Item \{(?=\n)', tree)
    end = parts[-1].find(b'\n    ],')
    if end >= 0:
        parts[-1] = parts[-1][:end]
    return [INDENT.sub(b'\n', it) for it in parts[1:]], INDENT.sub(b'\n', parts[0])


def printed(text):
    """What rustc printed of each module `p`, without blanks."""
    return [BLANKS.sub(b'', it) for it in re.split(rb'(?m)^mod p \{', text)[1:]]


class Debug:
    """Parses what `Debug` prints: a value is a text, ('[', [..]), (name, [..]) or (name, {..})."""

    def __init__(self, text):
        self.tokens = TOKEN.findall(text)
        self.at = 0

    def next(self):
        self.at += 1
        return self.tokens[self.at - 1]

    def skip(self, token):
        if self.tokens[self.at] == token:
            self.at += 1

    def values(self, closer):
        made = []
        while self.tokens[self.at] != closer:
            made.append(self.value())
            self.skip(',')
        self.at += 1
        return made

    def fields(self):
        made = {}
        while self.tokens[self.at] != '}':
            name = self.next()
            if name == ',':
                continue
            made[name[:-2]] = self.value()
            self.skip(',')
        self.at += 1
        return made

    def value(self):
        token = self.next()
        if token == '[':
            return '[', self.values(']')
        if token == '(':
            return '', self.values(')')
        if token == '{':
            return '', self.fields()
        if self.at < len(self.tokens) and self.tokens[self.at] in ('(', '{'):
            return token, self.values(')') if self.next() == '(' else self.fields()
        return token


def parse(text):
    return Debug(text).value()


def is_named(value, name):
    return isinstance(value, tuple) and value[0] == name


def bare(expr):
    """The expression within braces that the body of an arm or a closure may gain or lose."""
    while is_named(expr, 'Expr') and expr[1].get('attrs') == ('[', []):
        kind = expr[1]['kind']
        if not (is_named(kind, 'Block') and kind[1][1] == 'None'):
            break
        block = kind[1][0][1]
        stmts = [it for it in block['stmts'][1] if it[1]['kind'] != 'Empty']
        if block['rules'] != 'Default' or len(stmts) != 1:
            break
        kind = stmts[0][1]['kind']
        if not is_named(kind, 'Expr'):
            break
        if any(it[1]['style'] != 'Inner' for it in kind[1][0][1]['attrs'][1]):
            break
        expr = kind[1][0]
    return expr


def cook(text):
    """The value of a literal's text."""
    def one(found):
        if found[1] or found[2]:
            return chr(int(found[1] or found[2].replace('_', ''), 16))
        return PLAIN.get(found[3], found[3]) if found[3] else ''

    return ESCAPE.sub(one, text)


def doc_text(text):
    return text if '\n' in text else text.rstrip(' ')


def doc_of(attribute):
    """The documentation that an attribute is, if it is one."""
    kind = attribute['kind']
    if kind[0] == 'DocComment':
        return doc_text(cook(kind[1][1][1:-1]))
    try:
        item = kind[1][0][1]['item'][1]
        path = item['path'][1]['segments'][1]
        literal = item['args'][1][0][1]['expr'][1]['kind'][1][0][1]
        if len(path) != 1 or path[0][1]['ident'] != 'doc#0' or item['unsafety'] != 'Default':
            return None
        if literal['suffix'] != 'None':
            return None
        text = cook(literal['symbol'][1:-1])
        if literal['kind'] == 'Str':
            return doc_text(cook(text))
        return doc_text(text) if literal['kind'][0] == 'StrRaw' else None
    except (KeyError, IndexError, TypeError):
        return None


def is_listed(value, *kinds):
    """Whether it is a token of a list, of one of these kinds."""
    if not is_named(value, 'Token') or not isinstance(value[1], list):
        return False
    kind = value[1][0][1]['kind']
    return (kind if isinstance(kind, str) else kind[0]) in kinds


def spaced(parts):
    """The parts of a list, without the spacing around a `,` and a `;`."""
    for part, after in zip(parts, [*parts[1:], None]):
        before = is_named(part, 'Token') and is_listed(after, *SEPARATORS)
        if before or is_listed(part, *SEPARATORS):
            part = (part[0], [part[1][0], 'Alone'])
        yield part


def normal_list(name, parts, loose):
    if name == 'Token' and len(parts) == 2:
        word = is_listed((name, parts), *WORDS)
        return name, [normal(parts[0], loose), 'Alone' if word else normal(parts[1], loose)]
    if name == '[':
        parts = [
            it for it in spaced(parts)
            if not (is_named(it, 'Stmt') and it[1].get('kind') == 'Empty')
        ]
    if name == 'Delimited':
        parts = [it for it in parts if not is_named(it, 'DelimSpacing')]
    return name, [normal(it, loose) for it in parts]


def normal(value, loose):
    """A value without what doesn't count. Where `loose`, spacing of tokens in lists doesn't."""
    if isinstance(value, str):
        return 'Alone' if value == 'JointHidden' or loose and value == 'Joint' else value
    name, parts = value
    if isinstance(parts, list):
        return normal_list(name, parts, loose)
    kind = parts.get('kind')
    if name == 'Pat' and is_named(kind, 'Or') and len(kind[1][0][1]) == 1:
        return normal(kind[1][0][1][0], loose)
    if name == 'Token' and is_named(kind, 'DocComment'):
        return 'Doc', [kind[1][1], doc_text(cook(kind[1][2][1:-1]))]
    if name == 'Attribute':
        text = doc_of(parts)
        if text is not None:
            return 'Doc', [parts['style'], text]
    made = {}
    for field, it in parts.items():
        is_list = field == 'tokens' and it[0] == 'TokenStream'
        if 'span' in field or field in DROPPED and not is_list:
            continue
        if field == 'body' and name == 'Arm' and is_named(it, 'Some'):
            it = ('Some', [bare(it[1][0])])
        if field == 'body' and name == 'Closure':
            it = bare(it)
        made[field] = normal(it, loose)
    return name, made


def difference(one, other):
    """How two items' texts differ: '', 'SPACING' (of tokens in lists alone) or 'TREE'."""
    if one == other:
        return ''
    one, other = (parse('X {' + it.decode() + '\n') for it in (one, other))
    if normal(one, False) == normal(other, False):
        return ''
    return 'SPACING' if normal(one, True) == normal(other, True) else 'TREE'


def heads_differ(one, other):
    """Whether what stands before the items differs."""
    one, other = (parse(it.decode() + '] }') for it in (one, other))
    return normal(one, False) != normal(other, False)
