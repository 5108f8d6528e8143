//! White space and comments, tokens, and what words and literals are.

use crate::source::is_white;
use crate::xid::{CONTINUE, START};

#[derive(Clone, Copy, PartialEq, Eq, Debug)]
pub enum Delim {
    Paren,
    Bracket,
    Brace,
}

#[derive(Clone, Copy, PartialEq, Eq, Debug)]
pub enum Kind {
    Punct,
    Opener(Delim),
    Closer(Delim),
    Ident,
    RawIdent,
    Lifetime,
    Underscore,
    Int,
    Float,
    Byte,
    Char,
    ByteStr,
    CStr,
    Str,
    RawByteStr,
    RawCStr,
    RawStr,
    Doc { inner: bool, block: bool },
}

#[derive(Clone, Copy)]
pub struct Token<'a> {
    pub kind: Kind,
    pub text: &'a str,
    pub joint: bool,
    pub at: usize,
    pub len: usize,
}

impl<'a> std::fmt::Debug for Token<'a> {
    fn fmt(&self, f: &mut std::fmt::Formatter<'_>) -> std::fmt::Result {
        write!(f, "<{:?} {:?}{}>", self.kind, self.text, if self.joint { " joint" } else { "" })
    }
}

impl<'a> PartialEq for Token<'a> {
    fn eq(&self, o: &Token<'a>) -> bool {
        let k = match (self.kind, o.kind) {
            (Kind::Doc { inner: a, .. }, Kind::Doc { inner: b, .. }) => a == b,
            (a, b) => a == b,
        };
        k && self.text == o.text && self.joint == o.joint
    }
}

fn in_table(t: &[(u32, u32)], c: char) -> bool {
    let c = c as u32;
    t.binary_search_by(|&(a, b)| {
        if b < c {
            std::cmp::Ordering::Less
        } else if a > c {
            std::cmp::Ordering::Greater
        } else {
            std::cmp::Ordering::Equal
        }
    })
    .is_ok()
}

pub fn xid_start(c: char) -> bool {
    if c.is_ascii() {
        c.is_ascii_alphabetic()
    } else {
        in_table(&START, c)
    }
}

pub fn xid_continue(c: char) -> bool {
    if c.is_ascii() {
        c.is_ascii_alphanumeric() || c == '_'
    } else {
        in_table(&CONTINUE, c)
    }
}

fn word_start(c: char) -> bool {
    c == '_' || xid_start(c)
}

fn first(s: &str) -> Option<char> {
    s.chars().next()
}

fn begins(s: &str, f: impl Fn(char) -> bool) -> bool {
    first(s).map_or(false, f)
}

/// Length of the identifier at the front (`_` alone counts), or 0.
fn ident_len(s: &str) -> usize {
    if !begins(s, word_start) {
        return 0;
    }
    s.find(|c| !xid_continue(c)).unwrap_or(s.len())
}

pub fn is_name_piece(s: &str) -> bool {
    !s.is_empty() && ident_len(s) == s.len() && s != "_"
}

/// A block comment at the front: its length, or None where it isn't closed.
fn block_comment(s: &str) -> Option<usize> {
    scan_nested(s.as_bytes(), 2, 1)
}

/// From `at` with `depth` comments open: the place after the one that closes all.
fn scan_nested(b: &[u8], mut at: usize, mut depth: usize) -> Option<usize> {
    while at < b.len() {
        if b[at..].starts_with(b"/*") {
            depth += 1;
            at += 2;
        } else if b[at..].starts_with(b"*/") {
            depth -= 1;
            at += 2;
            if depth == 0 {
                return Some(at);
            }
        } else {
            at += 1;
        }
    }
    None
}

enum Comment {
    Plain(usize),
    Doc { len: usize, inner: bool, block: bool },
    Open,
}

fn comment(s: &str) -> Option<Comment> {
    if s.starts_with("//") {
        let len = s.find('\n').unwrap_or(s.len());
        if s.starts_with("///") && !s.starts_with("////") {
            return Some(Comment::Doc { len, inner: false, block: false });
        }
        if s.starts_with("//!") {
            return Some(Comment::Doc { len, inner: true, block: false });
        }
        return Some(Comment::Plain(len));
    }
    if s.starts_with("/*") {
        let len = match block_comment(s) {
            Some(n) => n,
            None => return Some(Comment::Open),
        };
        if s.starts_with("/*!") {
            return Some(Comment::Doc { len, inner: true, block: true });
        }
        if s.starts_with("/**") && !begins(&s[3..], |c| c == '*' || c == '/') {
            return Some(Comment::Doc { len, inner: false, block: true });
        }
        return Some(Comment::Plain(len));
    }
    None
}

/// Length of the gap at the front.
pub fn gap(s: &str) -> usize {
    let mut at = 0;
    loop {
        let r = &s[at..];
        if let Some(c) = first(r) {
            if is_white(c) {
                at += c.len_utf8();
                continue;
            }
        }
        match comment(r) {
            Some(Comment::Plain(n)) => at += n,
            _ => return at,
        }
    }
}

#[derive(Clone, Copy, PartialEq, Eq, Debug)]
pub enum DocForm {
    Line,
    Block,
    Neither,
}

pub fn doc_form(text: &str, inner: bool) -> DocForm {
    if text.contains('\r') {
        return DocForm::Neither;
    }
    if !text.contains('\n') {
        if text.ends_with(' ') || (!inner && text.starts_with('/')) {
            return DocForm::Neither;
        }
        return DocForm::Line;
    }
    if !inner && (text.starts_with('*') || text.starts_with('/')) {
        return DocForm::Neither;
    }
    let closed = format!("{text}*/");
    if scan_nested(closed.as_bytes(), 0, 1) == Some(closed.len()) {
        DocForm::Block
    } else {
        DocForm::Neither
    }
}

#[derive(Clone, Copy, PartialEq)]
enum Content {
    Uni,
    Byte,
    C,
}

/// One escape at the front of `s` (which starts with a backslash).
fn escape(s: &str, c: Content, string: bool) -> Option<usize> {
    let b = s.as_bytes();
    match *b.get(1)? {
        b'n' | b'r' | b't' | b'\\' | b'\'' | b'"' => Some(2),
        b'0' => {
            if c == Content::C {
                None
            } else {
                Some(2)
            }
        }
        b'x' => {
            let h = s.get(2..4)?;
            if !h.bytes().all(|x| x.is_ascii_hexdigit()) {
                return None;
            }
            let v = u8::from_str_radix(h, 16).ok()?;
            match c {
                Content::Uni if v > 0x7f => None,
                Content::C if v == 0 => None,
                _ => Some(4),
            }
        }
        b'u' => {
            if c == Content::Byte || b.get(2) != Some(&b'{') {
                return None;
            }
            let end = s.find('}')?;
            let body = &s[3..end];
            if !begins(body, |x| x.is_ascii_hexdigit()) {
                return None;
            }
            if !body.bytes().all(|x| x == b'_' || x.is_ascii_hexdigit()) {
                return None;
            }
            let digits: String = body.chars().filter(|&x| x != '_').collect();
            if digits.len() > 6 {
                return None;
            }
            let v = u32::from_str_radix(&digits, 16).ok()?;
            char::from_u32(v)?;
            if c == Content::C && v == 0 {
                return None;
            }
            Some(end + 1)
        }
        b'\n' if string => {
            let mut n = 2;
            while n < b.len() && matches!(b[n], b' ' | b'\t' | b'\n') {
                n += 1;
            }
            Some(n)
        }
        _ => None,
    }
}

fn plain_ok(ch: char, c: Content) -> bool {
    ch != '\r'
        && match c {
            Content::Uni => true,
            Content::Byte => ch.is_ascii(),
            Content::C => ch != '\0',
        }
}

/// `"` .. `"` at the front.
fn str_len(s: &str, c: Content) -> Option<usize> {
    let mut at = 1;
    loop {
        let r = &s[at..];
        let ch = first(r)?;
        if ch == '"' {
            return Some(at + 1);
        }
        if ch == '\\' {
            at += escape(r, c, true)?;
            continue;
        }
        if !plain_ok(ch, c) {
            return None;
        }
        at += ch.len_utf8();
    }
}

/// `#`s and `"` .. at the front.
fn raw_len(s: &str, c: Content) -> Option<usize> {
    let hashes = s.bytes().take_while(|&b| b == b'#').count();
    if hashes > 255 {
        return None;
    }
    if s.as_bytes().get(hashes) != Some(&b'"') {
        return None;
    }
    let close = format!("\"{}", "#".repeat(hashes));
    let from = hashes + 1;
    let n = s[from..].find(&close)?;
    if !s[from..from + n].chars().all(|ch| plain_ok(ch, c)) {
        return None;
    }
    Some(from + n + close.len())
}

/// `'` .. `'` of a Char or Byte at the front.
fn char_len(s: &str, c: Content) -> Option<usize> {
    let r = &s[1..];
    let ch = first(r)?;
    let n = if ch == '\\' {
        escape(r, c, false)?
    } else {
        if matches!(ch, '\'' | '\n' | '\r' | '\t') || !plain_ok(ch, c) {
            return None;
        }
        ch.len_utf8()
    };
    if s.as_bytes().get(1 + n) == Some(&b'\'') {
        Some(n + 2)
    } else {
        None
    }
}

/// A literal that isn't a number takes a suffix where one follows.
fn suffixed(s: &str, n: usize) -> usize {
    let m = ident_len(&s[n..]);
    if &s[n..n + m] == "_" {
        n
    } else {
        n + m
    }
}

fn run(s: &str, f: impl Fn(u8) -> bool) -> usize {
    s.bytes().take_while(|&b| f(b)).count()
}

fn dot_num(s: &str) -> bool {
    // a `.` that isn't followed by `.`, `_` or XID_Start
    s.starts_with('.') && !begins(&s[1..], |c| c == '.' || word_start(c))
}

fn number(s: &str, index: bool) -> Option<(Kind, usize)> {
    let digits = run(s, |b| b.is_ascii_digit());
    if index && !begins(&s[digits..], xid_continue) {
        return Some((Kind::Int, digits));
    }
    let based = s.starts_with("0x") || s.starts_with("0o") || s.starts_with("0b");
    if based {
        let hex = s.as_bytes()[1] == b'x';
        let n = 2 + run(&s[2..], |b| b == b'_' || if hex { b.is_ascii_hexdigit() } else { b.is_ascii_digit() });
        let body = &s[2..n];
        if !body.bytes().any(|b| b != b'_') {
            return None;
        }
        let top = match s.as_bytes()[1] {
            b'o' => b'7',
            b'b' => b'1',
            _ => b'f',
        };
        if !hex && body.bytes().any(|b| b != b'_' && b > top) {
            return None;
        }
        let suf = ident_len(&s[n..]);
        if suf > 0 {
            if !hex && begins(&s[n..], |c| c == 'e' || c == 'E') {
                return None;
            }
            return Some((Kind::Int, n + suf));
        }
        if dot_num(&s[n..]) || begins(&s[n..], xid_continue) {
            return None;
        }
        return Some((Kind::Int, n));
    }
    let mut n = run(s, |b| b == b'_' || b.is_ascii_digit());
    let mut kind = Kind::Int;
    if dot_num(&s[n..]) {
        kind = Kind::Float;
        n += 1;
        if !begins(&s[n..], |c| c.is_ascii_digit()) {
            // a Float that ends in `.`: neither exponent nor suffix
            return Some((kind, n));
        }
        n += run(&s[n..], |b| b == b'_' || b.is_ascii_digit());
    }
    let r = &s[n..];
    let mut exp = false;
    if begins(r, |c| c == 'e' || c == 'E') {
        let sign = begins(&r[1..], |c| c == '+' || c == '-') as usize;
        let m = run(&r[1 + sign..], |b| b == b'_' || b.is_ascii_digit());
        if !r[1 + sign..1 + sign + m].bytes().any(|b| b.is_ascii_digit()) {
            return None;
        }
        exp = true;
        kind = Kind::Float;
        n += 1 + sign + m;
    }
    let suf = ident_len(&s[n..]);
    if suf > 0 {
        if !exp && begins(&s[n..], |c| c == 'e' || c == 'E') {
            return None;
        }
        return Some((kind, n + suf));
    }
    if begins(&s[n..], xid_continue) {
        return None;
    }
    Some((kind, n))
}

/// The one kind and length at the front of `s`, which is no gap.
pub fn piece_at(s: &str, index: bool) -> Option<(Kind, usize)> {
    let c = first(s)?;
    match comment(s) {
        Some(Comment::Doc { len, inner, block }) => {
            if s[..len].contains('\r') {
                return None;
            }
            return Some((Kind::Doc { inner, block }, len));
        }
        Some(_) => return None,
        None => {}
    }
    if let Some(n) = prefixed(s) {
        return n;
    }
    if word_start(c) {
        let n = ident_len(s);
        if begins(&s[n..], |c| matches!(c, '"' | '\'' | '#')) {
            return None;
        }
        let kind = if n == 1 && c == '_' { Kind::Underscore } else { Kind::Ident };
        return Some((kind, n));
    }
    if c.is_ascii_digit() {
        return number(s, index);
    }
    let one = |k| Some((k, 1));
    match c {
        '"' => str_len(s, Content::Uni).map(|n| (Kind::Str, suffixed(s, n))),
        '\'' => {
            if s[1..].starts_with('\\') {
                return char_len(s, Content::Uni).map(|n| (Kind::Char, suffixed(s, n)));
            }
            if let Some(n) = char_len(s, Content::Uni) {
                return Some((Kind::Char, suffixed(s, n)));
            }
            let n = ident_len(&s[1..]);
            if n == 0 || begins(&s[1 + n..], |c| c == '\'' || c == '#') {
                return None;
            }
            Some((Kind::Lifetime, 1 + n))
        }
        '(' => one(Kind::Opener(Delim::Paren)),
        '[' => one(Kind::Opener(Delim::Bracket)),
        '{' => one(Kind::Opener(Delim::Brace)),
        ')' => one(Kind::Closer(Delim::Paren)),
        ']' => one(Kind::Closer(Delim::Bracket)),
        '}' => one(Kind::Closer(Delim::Brace)),
        '=' | '<' | '>' | '!' | '~' | '+' | '-' | '*' | '/' | '%' | '^' | '&' | '@' | '.' | ',' | ';' | ':' | '#' | '$' | '?'
        | '|' => one(Kind::Punct),
        _ => None,
    }
}

/// The tokens that begin with letters before a quote or `#`: none such here, or one such, which may be no token all the same.
fn prefixed(s: &str) -> Option<Option<(Kind, usize)>> {
    let lit = |kind, skip: usize, n: Option<usize>| Some(n.map(|n| (kind, suffixed(s, skip + n))));
    if s.starts_with("b'") {
        return lit(Kind::Byte, 1, char_len(&s[1..], Content::Byte));
    }
    if s.starts_with("b\"") {
        return lit(Kind::ByteStr, 1, str_len(&s[1..], Content::Byte));
    }
    if s.starts_with("c\"") {
        return lit(Kind::CStr, 1, str_len(&s[1..], Content::C));
    }
    if s.starts_with("br\"") || s.starts_with("br#") {
        return lit(Kind::RawByteStr, 2, raw_len(&s[2..], Content::Byte));
    }
    if s.starts_with("cr\"") || s.starts_with("cr#") {
        return lit(Kind::RawCStr, 2, raw_len(&s[2..], Content::C));
    }
    if let Some(r) = s.strip_prefix("r#") {
        if begins(r, word_start) {
            let n = ident_len(r);
            if matches!(&r[..n], "crate" | "self" | "super" | "Self" | "_") {
                return Some(None);
            }
            return Some(Some((Kind::RawIdent, 2 + n)));
        }
    }
    if s.starts_with("r\"") || s.starts_with("r#") {
        return lit(Kind::RawStr, 1, raw_len(&s[1..], Content::Uni));
    }
    None
}

fn token_text(kind: Kind, piece: &str) -> &str {
    match kind {
        Kind::RawIdent => &piece[2..],
        Kind::Doc { block, .. } => {
            let t = if block { &piece[3..piece.len() - 2] } else { &piece[3..] };
            if t.contains('\n') {
                t
            } else {
                t.trim_end_matches(' ')
            }
        }
        _ => piece,
    }
}

/// The tokens from the byte `start` on, or the place where no token is had.
pub fn lex(text: &str, start: usize) -> Result<Vec<Token<'_>>, usize> {
    let mut out: Vec<Token<'_>> = Vec::new();
    let mut at = start;
    loop {
        let g = gap(&text[at..]);
        at += g;
        if at == text.len() {
            return Ok(out);
        }
        let n = out.len();
        let index = n > 0 && is_dot(&out[n - 1]) && !(n > 1 && is_dot(&out[n - 2]) && out[n - 2].joint);
        let (kind, len) = match piece_at(&text[at..], index) {
            Some(p) => p,
            None => return Err(at),
        };
        let piece = &text[at..at + len];
        let tok = Token { kind, text: token_text(kind, piece), joint: false, at, len };
        if let Some(p) = out.last_mut() {
            p.joint = g == 0
                && p.kind == Kind::Punct
                && kind == Kind::Punct
                && !matches!(p.text, "," | ";")
                && !matches!(tok.text, "," | ";");
        }
        out.push(tok);
        at += len;
    }
}

pub fn is_dot(t: &Token<'_>) -> bool {
    t.kind == Kind::Punct && t.text == "."
}

/// The value of a Str or RawStr without suffix.
pub fn cook(t: &Token<'_>) -> Option<String> {
    match t.kind {
        Kind::RawStr => {
            let r = &t.text[1..];
            let h = run(r, |b| b == b'#');
            if !r.ends_with(&format!("\"{}", "#".repeat(h))) {
                return None;
            }
            // A suffix never ends in `"` or `#`; still, measure the literal exactly.
            if raw_len(r, Content::Uni) != Some(r.len()) {
                return None;
            }
            Some(r[h + 1..r.len() - h - 1].to_string())
        }
        Kind::Str => {
            if !t.text.ends_with('"') {
                return None;
            }
            let body = &t.text[1..t.text.len() - 1];
            let mut out = String::new();
            let mut at = 0;
            while at < body.len() {
                let r = &body[at..];
                let c = first(r)?;
                if c != '\\' {
                    out.push(c);
                    at += c.len_utf8();
                    continue;
                }
                let n = escape(r, Content::Uni, true)?;
                match r.as_bytes()[1] {
                    b'n' => out.push('\n'),
                    b'r' => out.push('\r'),
                    b't' => out.push('\t'),
                    b'0' => out.push('\0'),
                    b'x' => out.push(u8::from_str_radix(&r[2..4], 16).ok()? as char),
                    b'u' => {
                        let d: String = r[3..n - 1].chars().filter(|&x| x != '_').collect();
                        out.push(char::from_u32(u32::from_str_radix(&d, 16).ok()?)?);
                    }
                    b'\n' => {}
                    other => out.push(other as char),
                }
                at += n;
            }
            Some(out)
        }
        _ => None,
    }
}

#[derive(Clone, Copy, PartialEq, Eq, Debug)]
pub enum Class {
    Plain,
    PathWord,
    Strict,
    Reserved,
}

pub fn word_class(w: &str) -> Class {
    match w {
        "crate" | "self" | "super" | "Self" => Class::PathWord,
        "as" | "async" | "await" | "break" | "const" | "continue" | "dyn" | "else" | "enum" | "extern" | "false" | "fn"
        | "for" | "if" | "impl" | "in" | "let" | "loop" | "match" | "mod" | "move" | "mut" | "pub" | "ref" | "return"
        | "static" | "struct" | "trait" | "true" | "type" | "unsafe" | "use" | "where" | "while" => Class::Strict,
        "abstract" | "become" | "box" | "do" | "final" | "macro" | "override" | "priv" | "try" | "typeof" | "unsized"
        | "virtual" | "yield" => Class::Reserved,
        _ => Class::Plain,
    }
}
