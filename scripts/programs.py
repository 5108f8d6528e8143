"""Random programs, for a judge of what formatting keeps: `Programs(seed).program(kind)` is the text
of one or more items, of one of the kinds `KINDS`.

Any form stands in any place, so that precedence is tried. Many programs don't parse; whoever judges
passes them over."""
import random
import re

# Names, among them words that are keywords in some places alone.
NAMES = [
    'a', 'b', 'c', 'x', 'y', 'raw', 'union', 'safe', 'r#fn', 'r#match', 'auto', 'default', 'dyn_',
    'macro_rules', 'f',
]

# Types of one path.
TYPES = [
    'A', 'B', 'S', 'T', 'u8', 'Self', 'a::B', '::a::B', 'crate::A', 'super::S', 'r#type',
]

# Lifetimes.
LIFETIMES = [
    "'a", "'b", "'static", "'_",
]

# Literals.
LITERALS = [
    '1', '1.', '1.5', '1e3', '1.5e-3', '0x1f', '1u8', '1_0f64', '2.0f32', '0b1', '"s"', 'r"z"',
    'r#"z"#', "'c'", "'\\''", "b'c'", 'b"x"', 'br#"x"#', 'c"q"', 'true', 'false', '"a\\n b"',
    '"a\n  b"', '"\\u{e9}"',
]

# Numbers.
NUMBERS = [
    '1', '1.', '1.5', '1u8', '0x1f', '1e3', '1f32',
]

# What stands in token lists.
TOKENS = [
    'a', 'fn', 'r#fn', 'self', 'crate', '1', '1.', '1.0', '1e3', '1u8', '0x1f', '.', '..', '..=',
    '...', '::', ':', ',', ';', '=', '==', '=>', '->', '<-', '<', '>', '<<', '>>', '<=', '>=',
    '<<=', '>>=', '&', '&&', '*', '-', '+', '!', '!=', '?', '$', '#', '@', '~', '|', '||', '^',
    '%', '/', '+=', '-=', '&=', '|=', '_', '"s"', '"s"q', "'c'", "b'c'", 'r#"z"#', 'c"q"', "'a",
    "'static", "'r", "'fn", '$x:expr', '$crate', '$($x:tt),*', '$(a)?', 'x.0', 'x.0.1', '.0',
    'a::<b>', 'a!()', '#[a]', '#![a]', '/// d\n', '/** e */', '//! f\n', '/* c */', '// c\n', '(',
    ')', '[', ']', '{', '}', 'match', 'if', 'as', 'union', 'é', '&mut', '&raw', 'dyn', '=>{}',
    '->()', '!{}', '|x|', '-1', '- 1', '1-1', '*x', '&x', '..1', '1..', '1..2',
]

# Operators between two operands.
OPERATORS = [
    '=', '+=', '<<=', '..', '..=', '||', '&&', '==', '!=', '<', '>', '<=', '>=', '|', '^', '&',
    '<<', '>>', '+', '-', '*', '/', '%', '-=', '|=',
]

# What stands before an operand.
PREFIXES = [
    '-', '*', '!', '&', '&mut ', '&raw const ', '&raw mut ', '&&', '& &', '- -', '-!', '*&', '..',
    '..=', 'return ', 'break ', "break 'a ",
]

# The beginnings of closures.
CLOSURES = [
    '|x| ', '|| ', '|x|', '||', 'move |x| ', 'async |x| ', 'async move || ', '|x: A| ',
    '|&x, (y, z): (A, B)| ', '|_| ', '|x, | ', '|A { a, .. }| ', 'static || ', "for<'a> |x| ",
    '|#[a] x| ', '|mut x| ', '| | ',
]

# What stands after an operand.
SUFFIXES = [
    ' as A', ' as u8', ' as Vec<u8>', ' as &A', ' as fn() -> A', ' as fn()', ' as dyn A',
    ' as *const A', ' as <A as B>::C', ' as [A; 1]', ' as _', ' as (A)', ' as u8 as A',
    ' as m!()', ' as a::B', ' as A<B<C>>', '.x', '.0', '.0.1', '.0 .1', '.x.0.1', '.x()',
    '.x::<A>()', '.x::<A<B>>(a)', '()', '(a)', '(a, b,)', '[a]', '[..]', '[1..]', '?', '??',
    '.await', '.a().b()', '.a(b)?.c().d', '.r#fn', '.x(y)(z)', '[a][b]', '.0()', '.await?.b()',
]

# Expressions that nothing is put into.
ATOMS = [
    'a', 'b', 'x', 'A', 'S', 'raw', 'union', 'safe', 'self', 'Self', 'a::b', '::a', 'a::<B>',
    '<A>::b', '<A as B>::c', 'Vec::<A<B>>::new()', 'A::<{ 1 }>::b', 'm!()', 'm![]', 'm!{}',
    'm! { a }', '(a)', '()', '(a,)', '(a, b)', '[]', '[a]', '[a; 1]', '[a, b]', '{}', '{ a }',
    '{ a; }', '{ ; }', '{ {} }', 'S {}', 'S { a }', 'S { a: b }', 'S { a: b, ..c }', 'S { ..c }',
    'A::B { 0: a }', '<A>::B { a }', 'A::<B> {}', 'if a {}', 'if a {} else {}',
    'if a { b } else { c }', 'if a {} else if b {} else {}', 'if let A = b {}',
    'if let A = b && c {}', 'match a {}', 'match a { A => b }', 'match a { A => {} B => c }',
    'match a { _ => { b } }', 'loop {}', "'a: loop {}", "'a: {}", "'a: { b }", 'while a {}',
    'while let A = b {}', 'for a in b {}', 'unsafe {}', 'unsafe { a }', 'const {}', 'const { a }',
    'async {}', 'async move { a }', '..', 'a..', '..a', 'a..b', 'return', 'return a',
    'return S {}', 'return {}', 'break', "break 'a", 'break a', "break 'a b", 'break {}',
    'break S {}', 'continue', "continue 'a", '|| a', '|x| {}', '|| -> A {}', '|| { return a }',
    '|x| { break x }', '|| S {}', '|| { S {} }', '|| return S {}', '-1', '-a', '!a', '*a', '&a',
    'a + b', 'a < b', 'a == b', 'a && b', 'a = b', 'a as u8', 'a.b', 'a.b()', 'a()', 'a?', 'a[b]',
    '1.0', '1', '1.', '"s"', "'c'", '_', 'r#fn', 'true', 'a.0.1', 'crate::a', 'super::a',
]

# Expressions around others.
AROUND = [
    '(%s)', '(%s)', '(%s,)', '[%s]', '[%s; 1]', '{ %s }', '{ %s; }', 'a(%s)', 'a(%s, b)', 'a[%s]',
    'S { a: %s }', 'S { ..%s }', 'a.b(%s)', 'a.b(%s).c(%s)', 'if %s {}', 'if %s { a } else { b }',
    'if a { %s } else { b }', 'if a {} else if %s {}', 'if let A = %s {}',
    'if a && let A = %s {}', 'if let A = %s && b {}', 'if %s && b {}', 'while %s {}',
    'while let A | B = %s {}', 'for x in %s {}', 'match %s {}', 'match %s { A => b }',
    'match %s { A => %s, B => %s }', 'match a { A => %s }', 'match a { A => { %s } B => c }',
    'match a { A if %s => b }', 'match a { A if let B = %s => b, _ => {} }',
    'match a { A => { %s } .. => c }', 'match a { _ => { %s } -1 => c }', 'unsafe { %s }',
    'const { %s }', 'async { %s }', 'async move { %s }', "'a: { %s }", 'loop { %s }',
    '{ let x = %s; x }', '{ let A = %s else { b }; }', '{ let x: A = %s; }', 'return %s',
    'break %s', "break 'a %s", '|| -> A { %s }', '{ %s }.a', '{ %s } + b', '{ %s %s }',
    '{ %s; %s }', '{ #[a] %s }', '{ #![a] %s }', 'unsafe { %s }.a()', 'if a { %s } else { b }[c]',
    'match %s { x => x }(a)', 'match a { b => %s }.c', '(%s)(a)', '(%s).a', '(%s)?', '%s',
    'm!(%s)', '{ m! { %s } a }',
]

# Items with places where expressions stand.
PLACES = [
    'fn f() { %s }', 'fn f() { %s; }', 'fn f() { %s; a }', 'fn f() { let x = %s; }',
    'fn f() { let A = %s else { a }; }', 'const A: B = %s;', 'fn f() { if %s {} }',
    'fn f() { if %s { a } else { b } }', 'fn f() { while %s { a } }', 'fn f() { for x in %s {} }',
    'fn f() { match %s {} }', 'fn f() { match %s { A => b } }', 'fn f() { if let A = %s {} }',
    'fn f() { if let A = %s && b {} }', 'fn f() { if a && let A = %s {} }',
    'fn f() { match a { A => %s } }', 'fn f() { match a { A => %s, _ => %s } }',
    'fn f() { match a { A => %s B => c } }', 'fn f() { match a { A if %s => b } }',
    'fn f() { a(%s) }', 'fn f() { a.b(%s).c(%s); }', 'fn f() { S { a: %s } }',
    'fn f() { (%s, a) }', 'fn f() { [%s] }', 'fn f() { return %s }', 'fn f() { %s %s }',
    'fn f() { %s (a) }', 'fn f() { %s [a] }', 'fn f() { %s -a }', 'fn f() { %s.a }',
    'fn f() { unsafe { %s } }', "fn f() { 'a: { %s } }", 'fn f() { #[a] %s; }',
    'fn f() { a < %s }', 'fn f() { a = %s; }', 'fn f() { if a == %s {} }', 'fn f() { if !%s {} }',
    'fn f() { if a..%s {} }', 'fn f() { match %s + a {} }', 'fn f() { if a = %s {} }',
    'fn f() { if |x| %s {} }', 'fn f() { match |x| { %s } {} }',
    'fn f() { for x in a.b(%s).c {} }', 'fn f() { |x| %s }', 'fn f() { a(|x| %s) }',
    'fn f() { a(|x| { %s }) }', 'const A: B = |x| { %s };',
]

# Names that make lines break.
LONG = re.compile(r"""(?<![\w'#"\\.$])(a|b|x|c|S|A|B|T|m)(?![\w'"#:]|\s*:)""")

CLOSERS = {'(': ')', '[': ']', '{': '}'}

# What an attribute may be, where `%s` is `#` or `#!`.
ATTRIBUTES = [
    '%s[a] ', '%s[a::b(c, d)] ', '%s[a = 1] ', '%s[doc = "x"] ', '%s[doc = " a\\nb "] ',
    '%s[doc = r"x"] ', '%s[cfg(all(a, b = "c"))] ', '%s[unsafe(a)] ', '%s[doc(hidden)] ',
    '%s[a { b }] ', '%s[doc = "*/ x"] ', '%s[cfg_attr(a, doc = "x")] ',
    '%s[doc = " \\"q\\" \\\\ x"] ', '%s[derive(A, B,)] ', '%s [a[b]] ',
]

# What the bodies of closures are, where `%s` is an expression.
BODIES = [
    '%s', '%s', '{ %s }', '{ %s }', '{ %s; }', '{ { %s } }', '{ ; %s }', '{ #[a] %s }',
    '-> A { %s }', '{ return %s }', '{ break %s }', 'return %s', '{ S { a: %s } }', "'a: { %s }",
    'unsafe { %s }', '{ %s }.a', '{ |y| { %s } }', '|y| %s', '{ m!(%s) }', '{ -%s }',
    '{ %s as A }', '{ ..%s }', '-{ %s }.a', '&match %s { _ => b }[1..]', '..{ %s } + a',
    '!if a { %s } else { b }(c)',
]

# Statements that begin with what may end one.
STATEMENTS = [
    '{}', '{};', "'a: loop {}", '{ a } [b];', '{ a } (b);', '{} -1;', '{} &a;', '{} *a = b;',
    'if a {} .b();', 'match a {} ?;', 'm!{} a;', 'm!{}.b;', 'unsafe {}', 'const {}', '{} || a;',
    '{} ..;', '{} <A>::b;', "{} 'a: {}",
]

# Expressions that jump, and what may be their operand.
JUMPS = [
    'return', 'break', "break 'a", 'continue', "continue 'a", 'return', 'break', '..', '..=a',
    'a..',
]
OPERANDS = [
    '', '', 'S {}', 'S { a }', '{}', '{ a }', 'a', "'a: {}", '|x| x', '|x| { S {} }', '-S {}',
    'S {}.a', 'S {} + a', 'a == S {}', 'return S {}', 'if S {} {}', 'unsafe {}', 'match a {}',
    '..S {}', 'loop {}', 'm!{}', 'A::<B> {}', '(S {})',
]

# Blocks and braced calls, at the left edge of an expression.
BLOCKS = ['m!{}', '{}', 'loop {}', 'unsafe { a }'] + [
    it for it in AROUND
    if it[-1] == '}' and not it.startswith(('return', 'break', 'S', '||'))
]

# Items with places where types, patterns, token lists and attributes stand.
TYPE_PLACES = [
    'type A = %s;', 'fn f(x: %s) -> %s {}', 'fn f() { a as %s }', 'fn f() { a as %s < b }',
    'fn f() { a as %s << b }', 'fn f() { a as %s + b }', 'fn f() { |a: %s| b }',
    'fn f() { || -> %s {} }', 'struct A(pub %s);', 'impl %s {}', 'impl A for %s {}',
    'fn f() where %s: A {}', 'fn f() { <%s>::a }', 'const A: %s = b;',
    'fn f() { let x: %s = a; }', 'fn f() { let x: %s= a; }', 'fn f() { a::<%s>() }',
    'fn f() { a.b::<%s>() }', 'fn f() { a as %s >= b }', 'fn f() { a as %s > b }',
    'fn f() { if a as %s {} }', 'fn f() { a as %s && b }', 'fn f() { a as %s & b }',
    'fn f() { a as %s - b }', 'fn f() { a as %s as B }', 'struct A { a: %s, b: %s }',
    'fn f() { match a { _ => b as %s, _ if a as %s => c } }', 'fn f() { a as %s | b }',
    'fn f() { a as %s * b }', 'fn f() { a as %s..b }', 'fn f() { a as %s == b }',
    'fn f() { a as %s = b }', 'fn f() { a as %s >> b }', 'type A<T> = %s where T: B;',
    'trait A { type B: C<%s>; }', 'fn f<T: A<%s>>() {}',
]
PATTERN_PLACES = [
    'fn f() { let %s = a; }', 'fn f() { let %s: A; }', 'fn f() { |%s| a }', 'fn f() { |%s, %s| a }',
    'fn f() { match a { %t => b, %t if c => d } }', 'fn f() { if let %t = a {} }',
    'fn f() { while let %t = a && b {} }', 'fn f() { for %t in a {} }',
    'fn f() { let %s = a else {}; }', 'fn f(%s: A) {}', 'fn f() { match a { _ => {} %t => b } }',
]
LIST_PLACES = [
    'm!{%s}', 'm!(%s);', 'm![%s];', 'fn f() { m!(%s); }', 'fn f() { a(m![%s], b) }',
    'fn f() { m! { %s } }', 'macro_rules! m { (%s) => { %s } }', '#[a(%s)] struct A;',
    'fn f() { let x = m! { %s }.a; }', 'type A = m!(%s);',
    'fn f() { match a { m!(%s) => m!(%s) } }',
    'macro_rules! m ((%s) => [%s]; {%s} => {%s});', '#[a = %s] fn f() {}',
]
ATTRIBUTE_PLACES = [
    '%s struct A;', 'struct A { %s a: B }', 'struct A(%s B);', 'enum A { %s B }',
    'fn f(%s a: B) {}', 'impl A { %s fn f(%s self) {} }', 'struct A<%s T>(T);',
    'fn f() { %s let a = b; }', 'fn f() { %s a; }', 'fn f() { match a { %s A => b } }',
    'fn f() { A { %s a: b } }', 'fn f() { let A { %s a } = b; }', '%s fn f() {}',
    'trait A { %s type B; }', 'extern { %s fn f(); }', 'm! { %s }', 'mod a { %s fn f() {} }',
    '%s use a;', 'macro_rules! m { (%s) => {} }',
]


class Programs:
    """Programs that a seed draws, one after the other."""

    def __init__(self, seed):
        self.draw = random.Random(seed)

    # ---- what all draw by

    def pick(self, items):
        return items[int(self.draw.random() * len(items))]

    def yes(self, chance):
        return self.draw.random() < chance

    def some(self, make, most=2):
        """At most so many, with commas between them, and now and then one after the last."""
        made = [make() for _ in range(self.draw.randint(0, most))]
        return ', '.join(made) + (',' if made and self.yes(.1) else '')

    def row(self, make, most, least=0):
        """At most so many, side by side."""
        return ' '.join(make() for _ in range(self.draw.randint(least, most)))

    def fill(self, text, make):
        """The text with something in each of its places."""
        while '%s' in text:
            text = text.replace('%s', make(), 1)
        return text

    def longer(self, text):
        """Some of a program's names made long, so that its lines break."""
        names = self.draw.sample('abxcSABTm', self.draw.randint(1, 3))
        long = {it: it + '_' + 'l' * self.pick([20, 40, 60, 88]) for it in names}
        return LONG.sub(lambda it: long.get(it[1], it[1]) if self.yes(.7) else it[1], text)

    # ---- token lists and attributes

    def tokens(self, most=8):
        """Tokens with all brackets in pairs."""
        out, open_ = [], []
        for _ in range(self.draw.randint(0, most)):
            token = self.pick(TOKENS)
            if token in CLOSERS:
                open_.append(CLOSERS[token])
            elif token in ')]}':
                if not open_:
                    continue
                token = open_.pop()
            out.append(token)
        text = ''
        for token in [*out, *reversed(open_)]:
            text += token + self.pick(['', ' ', ' ', '\n'])
            # Two words side by side would be another one.
            if text[-1:].isalnum() or text[-1:] in '_"\'':
                text += ' '
        return text

    def group(self):
        return self.pick(['(%s)', '[%s]', '{%s}', '{ %s }']) % self.tokens()

    def macro(self, group=None):
        name = self.pick(['m', 'a::m', '::m', 'vec', 'r#fn', 'crate::m', 'union', 'self::m'])
        return name + self.pick(['!', '! ', ' !']) + (group or self.group())

    def attr(self, sign='#'):
        inner = sign == '#!'
        line, block = ('!', '!') if inner else ('/', '*')
        comments = [
            f'//{line} line\n', f'//{line}\n', f'/*{block} block */ ',
            f'/*{block} two\n  lines\n */ ',
        ]
        text = self.pick(ATTRIBUTES + comments)
        return text % sign if '%s' in text else text

    def attrs(self, chance=.06, sign='#'):
        text = ''
        while self.yes(chance):
            text += self.attr(sign)
        return text

    # ---- types

    def segment(self, depth, in_type=True):
        text = self.pick(['A', 'B', 'S', 'Vec', 'a', 'r#fn', 'T'])
        return text + (self.args(depth - 1, in_type) if depth > 0 and self.yes(.35) else '')

    def args(self, depth, in_type=True):
        if in_type and self.yes(.2):
            output = ' -> ' + self.type(depth, True) if self.yes(.5) else ''
            return '(' + self.some(lambda: self.type(depth)) + ')' + output
        sign = '' if in_type and self.yes(.9) else '::'
        return sign + '<' + self.some(lambda: self.arg(depth)) + '>'

    def arg(self, depth):
        kind = self.draw.randrange(10)
        if kind == 0:
            return self.pick(LIFETIMES)
        if kind == 1:
            inner = self.pick(['N', 'N + 1', '-1', 'a > b', '{ 1 }', 'S { a: 1 }.a'])
            number = '-' + self.pick(NUMBERS[:4])
            return self.pick([self.pick(LITERALS[:14]), number, '{ ' + inner + ' }', 'true'])
        if kind == 2:
            args = self.args(depth - 1, False) if depth > 0 and self.yes(.3) else ''
            return self.pick(['A', 'B']) + args + self.pick([' = ', '=']) + self.type(depth)
        if kind == 3:
            return self.pick(['A', 'B']) + self.pick([': ', ':']) + self.bounds(depth)
        return self.type(depth)

    def path(self, depth, in_type=True):
        def segments(depth):
            return '::'.join(self.segment(depth, in_type) for _ in range(self.draw.randint(1, 2)))

        if depth > 0 and self.yes(.2):
            trait = ' as ' + self.path(depth - 1) if self.yes(.6) else ''
            return '<' + self.type(depth - 1) + trait + '>::' + segments(depth - 1)
        start = self.pick(['', '', '', '::', 'crate::', 'self::', 'Self::', 'super::'])
        return start + segments(depth)

    def lifetime(self, bounds):
        return self.pick(LIFETIMES[:2]) + self.pick(bounds)

    def binder(self):
        return 'for<' + self.some(lambda: self.lifetime(['', '', ": 'c", ": 'c + 'd", ':'])) + '> '

    def bound(self, depth):
        if self.yes(.2):
            return self.pick(LIFETIMES)
        start = '?' if self.yes(.15) else self.binder() if self.yes(.15) else ''
        text = start + self.path(depth)
        return '(' + text + ')' if self.yes(.12) else text

    def bounds(self, depth, most=3):
        made = [self.bound(depth)]
        for _ in range(self.draw.randint(0, most - 1)):
            made.append(self.bound(depth) if self.yes(.9) else "use<'a, T>")
        return self.pick([' + ', '+', ' + ']).join(made)

    def type(self, depth, one_bound=False):
        if depth <= 0:
            return self.pick(TYPES + [
                '()', '_', '!', '&A', "&'a mut B", '*const A', '[A]', '(A)', '(A,)', 'fn()',
                'dyn A', 'impl A', 'm!()',
            ])
        kind = self.draw.randrange(18)
        if kind < 5:
            return self.path(depth)
        if kind == 5:
            return self.macro()
        if kind == 6:
            return '(' + self.type(depth - 1) + ')'
        if kind == 7:
            two = self.type(depth - 1) + ', ' + self.type(depth - 1)
            return '(' + two + self.pick(['', ',']) + ')'
        if kind == 8:
            return self.pick(['*const ', '*mut ']) + self.type(depth - 1, True)
        if kind < 11:
            sign = self.pick(['&', '& ', '&&']) + self.pick(['', '', "'a ", "'static "])
            return sign + self.pick(['', '', 'mut ']) + self.type(depth - 1, True)
        if kind == 11:
            return '[' + self.type(depth - 1) + ']'
        if kind == 12:
            return '[' + self.type(depth - 1) + '; ' + self.pick([
                '1', 'N', 'N + 1', 'm!()', '{ N }', 'A::<B>::C', '-1', 'a as b', '<A as B>::C',
                'f(&x, |y| y)', 'if a { b } else { c }', '1 << 2', 'x.0.1',
            ]) + ']'
        if kind < 15:
            start = (self.binder() if self.yes(.3) else '') + self.pick(['', '', 'unsafe '])
            params = self.some(
                lambda: self.attrs(.04) + self.pick(['', '', 'a: ', '_: ']) + self.type(depth - 1))
            output = ' -> ' + self.type(depth - 1, True) if self.yes(.5) else ''
            abi = self.pick(['', '', 'extern ', 'extern "C" '])
            return start + abi + 'fn(' + params + ')' + output
        return self.pick(['dyn ', 'impl ']) + self.bounds(depth - 1, 1 if one_bound else 3)

    # ---- patterns

    def span_end(self):
        if self.yes(.6):
            return self.pick(['', '', '-']) + self.pick(NUMBERS[:5])
        return self.pick(["'a'", 'A::B', 'a::<B>::C', '<A as B>::C', 'MAX'])

    def span(self):
        sign = self.pick(['..=', ' ..= ', '..', '...'])
        start, end = self.span_end(), self.span_end()
        return self.pick([start + sign + end, start + sign + end, sign.strip() + end, start + '..'])

    def field_pattern(self, depth):
        return self.attrs(.04) + self.pick([
            self.pick(NAMES) + ': ' + self.pattern(depth, True),
            '0: ' + self.pattern(depth),
            self.pick(['', 'ref ', 'mut ', 'ref mut ']) + self.pick(NAMES[:5]),
        ])

    def pattern(self, depth, alternatives=False):
        if alternatives and self.yes(.25):
            made = [self.pattern(depth) for _ in range(self.draw.randint(1, 3))]
            return self.pick(['', '| ']) + ' | '.join(made)
        if depth <= 0:
            return self.pick([
                '_', 'x', 'y', '1', '-1', '-1.5', 'A::B', 'ref x', 'mut x', 'ref mut x', 'true',
                '"s"', "'c'", 'x @ _', 'm!()', '(..)', '[..]', 'b"x"', 'A', '::A', 'r#fn', 'A()',
                'A {}', 'A { .. }',
            ])
        kind = self.draw.randrange(14)
        if kind == 0:
            return self.macro()
        if kind == 1:
            return self.path(1, False)
        if kind < 4:
            start = self.pick(['', 'ref ', '']) + self.pick(['', 'mut ', ''])
            return start + self.pick(NAMES[:8]) + ' @ ' + self.pattern(depth - 1)
        if kind < 6:
            return self.span()
        if kind < 8:
            return self.pick(['&', '& ', '&&', '&mut ']) + self.pattern(depth - 1)
        if kind == 8:
            fields = [self.field_pattern(depth - 1) for _ in range(self.draw.randint(0, 2))]
            rest = ['..'] if self.yes(.3) else []
            return self.path(1, False) + ' { ' + ', '.join(fields + rest) + ' }'

        def element(others):
            return self.pick(others) if self.yes(.4) else self.pattern(depth - 1, True)

        if kind == 9:
            return self.path(1, False) + '(' + self.some(lambda: element(['..']), 3) + ')'
        if kind < 12:
            return '(' + self.some(lambda: self.pattern(depth - 1, True), 3) + ')'
        return '[' + self.some(lambda: element(['..', 'x @ ..']), 3) + ']'

    # ---- expressions and blocks

    def closure(self, depth):
        return self.pick(CLOSURES) + self.fill(self.pick(BODIES), lambda: self.expr(depth - 1))

    def expr(self, depth):
        if depth <= 0:
            return self.pick(ATOMS) if self.yes(.8) else self.pick(LITERALS + NAMES)
        kind = self.draw.randrange(20)
        if kind < 2:
            return self.pick(ATOMS)
        if kind < 7:
            blanks = [' ', ' ', '']
            sign = self.pick(blanks) + self.pick(OPERATORS) + self.pick(blanks)
            return self.operand(depth - 1) + sign + self.operand(depth - 1)
        if kind < 10:
            return self.pick(PREFIXES) + self.operand(depth - 1)
        if kind < 13:
            return self.operand(depth - 1) + self.pick(SUFFIXES)
        if kind < 15:
            return self.closure(depth)
        if kind == 15:
            end = self.pick(['', '', '(a)', ' { a: b }', '::<A>', '!()'])
            return self.path(depth - 1, False) + end
        return self.fill(self.pick(AROUND), lambda: self.expr(depth - 1))

    def operand(self, depth):
        text = self.expr(depth)
        return '(' + text + ')' if self.yes(.25) and not text.startswith('(') else text

    def let(self, depth):
        asked = ': ' + self.type(1) if self.yes(.3) else ''
        value = ' = ' + self.expr(depth) if self.yes(.9) else ''
        return self.attrs() + 'let ' + self.pattern(2) + asked + value + ';'

    def stmt(self, depth):
        kind = self.draw.randrange(14)
        if kind < 3:
            return self.let(depth)
        if kind == 3:
            value = self.operand(depth) + ' else { ' + self.expr(0) + ' };'
            return self.attrs() + 'let ' + self.pattern(1) + ' = ' + value
        if kind == 4:
            return self.item(1)
        if kind == 5:
            end = self.pick([';', '.a;', '?;', '();', ' + a;', ''])
            return self.pick([';', ';;', self.macro() + end] + STATEMENTS)
        return self.attrs(.04) + self.expr(depth) + self.pick([';', ';', ';', '', ';;'])

    def block(self, depth):
        if depth <= 0:
            return self.pick(['{}', '{ a }', '{ a; }'])
        inner = self.attrs(.4, '#!') if self.yes(.06) else ''
        last = ' ' + self.expr(depth - 1) if self.yes(.4) else ''
        return '{ ' + inner + self.row(lambda: self.stmt(depth - 1), 3) + last + ' }'

    # ---- items

    def vis(self):
        return self.pick([
            '', '', '', 'pub ', 'pub ', 'pub(crate) ', 'pub(self) ', 'pub(super) ', 'pub(in a::b) ',
            'pub(in crate) ', 'pub(in self::a) ', 'pub (crate) ',
        ])

    def parameter(self, depth):
        if self.yes(.5):
            bounds = ': ' + self.bounds(depth) if self.yes(.5) else self.pick(['', ':'])
            default = ' = ' + self.type(depth) if self.yes(.15) else ''
            return self.attrs(.04) + self.pick(['T', 'U']) + bounds + default
        value = self.pick(['1', '-1', '{ 1 + 2 }', 'M', "'c'"])
        default = ' = ' + value if self.yes(.3) else ''
        return self.attrs(.04) + 'const N: ' + self.pick(['u8', 'A<B>']) + default

    def generics(self, depth):
        if self.yes(.5):
            return ''
        lifetimes = [
            self.attrs(.04) + self.lifetime(['', ": 'b", ": 'a + 'b", ':'])
            for _ in range(self.draw.randint(0, 1))
        ]
        others = [self.parameter(depth) for _ in range(self.draw.randint(0, 2))]
        made = lifetimes + others
        return '<' + ', '.join(made) + (',' if made and self.yes(.1) else '') + '>'

    def predicate(self, depth):
        kind = self.draw.randrange(3)
        if kind == 0:
            return self.lifetime([':', ": 'b", ": 'a + 'b"])
        if kind == 1:
            start = self.binder() if self.yes(.25) else ''
            return start + self.type(depth) + ': ' + self.bounds(depth)
        of = self.pick([
            'T', '[T]', '<T as A>::B', '(A, B)', "&'a T", '*const T', 'fn(A) -> B', 'dyn A',
        ])
        return of + self.pick([':', ': ' + self.bounds(depth)])

    def wheres(self, depth):
        return '' if self.yes(.6) else ' where ' + self.some(lambda: self.predicate(depth), 3)

    def params(self, depth, receives):
        made = []
        if receives and self.yes(.6):
            made.append(self.attrs(.04) + self.pick([
                'self', 'mut self', '&self', '&mut self', "&'a self", "&'a mut self",
                'self: ' + self.type(1), 'mut self: ' + self.type(1), '& self',
            ]))
        for _ in range(self.draw.randint(0, 2)):
            made.append(self.attrs(.04) + self.pick([
                'x', 'mut x', '_', '(a, b)', '&x', '[a, ..]', 'S { a, .. }', 'A(x)', 'x @ A',
                'ref x', 'x', 'y', '&mut x', '(A | B)',
            ]) + self.pick([': ', ':']) + self.type(depth))
        return '(' + ', '.join(made) + (',' if made and self.yes(.1) else '') + ')'

    def head(self, depth, receives=False):
        words = self.pick(['', '', '', 'const ']) + self.pick(['', '', '', 'async '])
        words += self.pick(['', '', '', 'unsafe '])
        words += self.pick(['', '', '', 'extern ', 'extern "C" ', 'extern r"C" '])
        output = self.pick([' -> ', '->']) + self.type(depth) if self.yes(.5) else ''
        name = 'fn ' + self.pick(NAMES) + self.generics(1)
        return words + name + self.params(depth, receives) + output + self.wheres(1)

    def fields(self, depth):
        def field():
            name = self.pick(NAMES) + self.pick([': ', ':'])
            return self.attrs() + self.vis() + name + self.type(depth)

        return '{ ' + self.some(field) + ' }'

    def tuple_fields(self, depth):
        return '(' + self.some(lambda: self.attrs() + self.vis() + self.type(depth)) + ')'

    def use(self, depth):
        start = ''.join(self.pick(['a::', 'b::', 'r#fn::']) for _ in range(self.draw.randint(0, 2)))
        kind = self.draw.randrange(6) if depth > 0 else 0
        if kind < 3:
            name = self.pick(['a', 'B', 'self', 'r#fn', 'union'])
            return start + name + self.pick(['', '', ' as c', ' as _', ' as r#fn'])
        if kind == 3:
            return start + '*'
        return start + '{' + self.some(lambda: self.use(depth - 1), 3) + '}'

    def member(self, depth, has_body):
        if self.yes(.07):
            return self.attrs() + (self.vis() if has_body else '') + self.macro('()') + ';'
        kind = self.draw.randrange(3)
        if kind == 0:
            end = ' ' + self.block(depth) if has_body or self.yes(.4) else ';'
            text = self.head(depth, True) + end
        elif kind == 1:
            value = ' = ' + self.expr(depth) if has_body or self.yes(.5) else ''
            text = 'const ' + self.pick(['A', '_', 'B']) + ': ' + self.type(depth) + value + ';'
        else:
            bounds = ': ' + self.bounds(1) if not has_body and self.yes(.5) else ''
            value = ' = ' + self.type(depth) if has_body or self.yes(.5) else ''
            name = 'type ' + self.pick(['A', 'B']) + self.generics(1)
            text = name + bounds + value + self.wheres(1) + ';'
        return self.attrs() + (self.vis() if has_body else '') + text

    def members(self, depth, has_body):
        return self.row(lambda: self.member(depth - 1, has_body), 3)

    def foreign(self):
        kind = self.draw.randrange(5)
        if kind == 0:
            params = self.some(lambda: self.attrs(.04) + 'x: ' + self.type(1))
            output = ' -> ' + self.type(1) if self.yes(.5) else ''
            head = self.pick(['', 'unsafe ', 'safe ']) + 'fn f' + self.generics(1)
            text = self.vis() + head + '(' + params + ')' + output + self.wheres(0) + ';'
        elif kind == 1:
            text = self.vis() + 'fn f(x: A, ...);'
        elif kind == 2:
            text = self.vis() + 'static ' + self.pick(['', 'mut ']) + 'A: ' + self.type(1) + ';'
        elif kind == 3:
            text = self.vis() + 'type A;'
        else:
            text = self.macro('()') + ';'
        return self.attrs() + text

    def variant(self, depth):
        fields = self.pick(['', self.tuple_fields(depth), ' ' + self.fields(depth)])
        value = ''
        if self.yes(.4):
            value = self.pick([' = ', '=']) + self.pick([
                '1', '-1', '1 << 2', 'A as B', 'a::<B>()', '{ 1 }', 'if a { b } else { c }',
                'm!(a)', '!0', '&a', 'b"x"[0]', '-(1)', 'x.0.1', 'a < b', '|x| y', 'S { a }',
                'A::<B<C>>::D', 'match a { _ => b }', '*b"a\n" as u8',
            ])
        return self.attrs() + self.pick(['A', 'B', 'r#fn']) + fields + value

    def rules(self):
        def rule():
            matched = self.pick(['(%s)', '[%s]', '{%s}']) % self.tokens(6)
            return matched + ' => ' + self.pick(['{%s}', '(%s)', '[%s]']) % self.tokens(6)

        rules = '; '.join(rule() for _ in range(self.draw.randint(0, 2)))
        name = 'macro_rules! ' + self.pick(NAMES[:4]) + ' '
        return name + self.pick(['{ %s }', '(%s);', '[%s];']) % rules

    def item(self, depth):
        kind = self.draw.randrange(17)
        start = self.attrs(.1) + self.vis()
        inner = self.attrs(.3, '#!') if self.yes(.1) else ''
        if kind == 0:
            names = ['a', 'r#fn', 'self as b', 'a as _', 'a as b']
            return start + 'extern crate ' + self.pick(names) + ';'
        if kind == 1:
            root = self.pick(['', '', '::', 'crate::', 'self::', 'super::'])
            return start + 'use ' + root + self.use(3) + ';'
        if kind == 2:
            items = self.row(lambda: self.item(depth - 1), 2 if depth > 0 else 0)
            body = ' { ' + self.attrs(.3, '#!') + items + ' }'
            return start + 'mod ' + self.pick(NAMES) + self.pick([';', body])
        if kind < 6:
            return start + self.head(depth) + ' ' + self.block(depth)
        if kind == 6:
            name = 'type ' + self.pick(['A', 'r#fn']) + self.generics(depth) + ' = '
            return start + name + self.type(depth + 1) + self.pick(['', '', self.wheres(1)]) + ';'
        if kind == 7:
            name = 'struct ' + self.pick(['A', 'union', 'S']) + self.generics(depth)
            return start + name + self.pick([
                self.wheres(1) + ';', self.tuple_fields(depth) + self.wheres(1) + ';',
                self.wheres(1) + ' ' + self.fields(depth),
            ])
        if kind == 8:
            name = 'union ' + self.pick(['A', 'r#fn', 'union']) + self.generics(depth)
            return start + name + self.wheres(1) + ' ' + self.fields(depth)
        if kind == 9:
            name = 'enum A' + self.generics(depth) + self.wheres(1)
            return start + name + ' { ' + self.some(lambda: self.variant(depth), 3) + ' }'
        if kind == 10:
            word = self.pick(['const ', 'static ', 'static mut ']) + self.pick(['A', 'r#fn'])
            value = self.pick([' = ', '=']) + self.expr(depth + 1)
            return start + word + ': ' + self.type(depth) + value + ';'
        if kind == 11:
            name = self.pick(['', '', 'unsafe ']) + 'trait A' + self.generics(depth)
            bounds = self.pick(['', ': ' + self.bounds(depth), ':'])
            body = ' { ' + inner + self.members(depth, False) + ' }'
            return start + name + bounds + self.wheres(1) + body
        if kind < 14:
            name = self.pick(['', '', 'unsafe ']) + 'impl' + self.generics(depth) + ' '
            sign = self.pick(['', '!', '', ''])
            trait = sign + self.path(depth) + ' for ' if self.yes(.5) else ''
            body = ' { ' + inner + self.members(depth, True) + ' }'
            return start + name + trait + self.type(depth) + self.wheres(1) + body
        if kind == 14:
            abi = self.pick(['', '', 'unsafe ']) + 'extern ' + self.pick(['', '"C" ', 'r"C" '])
            return self.attrs() + abi + '{ ' + self.row(self.foreign, 3) + ' }'
        if kind == 15:
            return self.attrs() + self.rules()
        group = self.group()
        return self.attrs() + self.macro(group) + ('' if group[0] == '{' else ';')

    # ---- programs by kinds

    def expressions(self):
        return self.fill(self.pick(PLACES), lambda: self.expr(self.pick([0, 1, 2, 2, 3])))

    def closures(self):
        def one():
            if self.yes(.8):
                return self.closure(self.pick([1, 2, 2, 3]))
            return self.pick(PREFIXES) + self.closure(2)

        return self.fill(self.pick(PLACES), one)

    def edges(self):
        """A block or a braced call at the left edge of an expression, in each place."""
        def one():
            text = self.fill(self.pick(BLOCKS), lambda: self.expr(1))
            for _ in range(self.draw.randint(1, 2)):
                if self.yes(.6):
                    text += self.pick(SUFFIXES)
                else:
                    sign = self.pick([' ', '']) + self.pick(OPERATORS) + self.pick([' ', ''])
                    text += sign + self.pick(ATOMS)
            if self.yes(.5):
                text = self.pick(PREFIXES) + text
            if self.yes(.5):
                text = self.pick(CLOSURES) + text
            return self.pick(PREFIXES) + text if self.yes(.2) else text

        return self.fill(self.pick(PLACES), one)

    def jumps(self):
        """What takes an operand or none, before what could be one."""
        def one():
            text = self.pick(JUMPS) + ' ' + self.pick(OPERANDS)
            for _ in range(self.draw.randint(0, 2)):
                text = self.pick([
                    self.pick(CLOSURES) + text, self.pick(CLOSURES) + '{ ' + text + ' }',
                    self.pick(PREFIXES) + text, 'a ' + self.pick(OPERATORS) + ' ' + text,
                    text + self.pick(SUFFIXES), text + ' ' + self.pick(OPERATORS) + ' a',
                    '(' + text + ')', text + ' {}',
                ])
            return text

        return self.fill(self.pick(PLACES), one)

    def statements(self):
        return 'fn f() ' + self.block(self.pick([2, 3]))

    def types(self):
        return self.fill(self.pick(TYPE_PLACES), lambda: self.type(self.pick([1, 2, 2, 3])))

    def patterns(self):
        text = self.pick(PATTERN_PLACES)
        while '%t' in text:
            text = text.replace('%t', self.pattern(self.pick([1, 2]), True), 1)
        return self.fill(text, lambda: self.pattern(self.pick([1, 2, 3])))

    def items(self):
        return self.row(lambda: self.item(self.pick([1, 2, 2])), 2, 1)

    def lists(self):
        return self.fill(self.pick(LIST_PLACES), lambda: self.tokens(10))

    def docs(self):
        return self.fill(self.pick(ATTRIBUTE_PLACES), lambda: self.attrs(.5) + self.attr())

    def program(self, kind):
        text = getattr(self, kind)()
        return self.longer(text) if self.yes(.45) else text


KINDS = [
    'expressions', 'closures', 'edges', 'jumps', 'statements', 'types', 'patterns', 'items',
    'lists', 'docs',
]
