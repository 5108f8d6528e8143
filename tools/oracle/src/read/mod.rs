//! The readers: tokens to trees, by docs/GRAMMAR.md.
//! A reader takes the longest front. Whether an expression may stand in its place, and how deep an item nests, is asked of the tree afterwards.

mod attrs;
mod blocks;
mod exprs;
mod items;
mod patterns;
mod types;

pub use exprs::is_plain_number;

use crate::lex::{word_class, Class, Delim, Kind, Token};
use crate::tree::{NameOr, Tokens, Word};

pub type R<T> = Result<T, ()>;

/// How deep the readers call themselves. A file that is 256 deep needs no more than twice as many turns, since a pair of braces that isn't in
/// the tree costs one level there and two turns here.
const TURNS: u32 = 1100;

pub struct Reader<'t, 'a> {
    toks: &'t [Token<'a>],
    partner: &'t [u32],
    pub pos: usize,
    end: usize,
    turns: u32,
    /// The tokens that say nothing of the tree, in the order in which that was seen.
    free: Vec<usize>,
    /// The attributes that are documentation, each by its first token and the one behind it.
    docs: Vec<(usize, usize)>,
}

/// Where a reader stands, to go back to.
struct Mark {
    pos: usize,
    free: usize,
    docs: usize,
}

impl<'t, 'a> Reader<'t, 'a> {
    pub fn new(toks: &'t [Token<'a>], partner: &'t [u32]) -> Self {
        Reader { toks, partner, pos: 0, end: toks.len(), turns: 0, free: vec![], docs: vec![] }
    }

    fn mark(&self) -> Mark {
        Mark { pos: self.pos, free: self.free.len(), docs: self.docs.len() }
    }

    fn back(&mut self, mark: Mark) {
        self.pos = mark.pos;
        self.free.truncate(mark.free);
        self.docs.truncate(mark.docs);
    }

    /// The token that was read last says nothing of the tree.
    fn passed_free(&mut self) {
        self.free.push(self.pos - 1);
    }

    /// The last comma, of the list of one element that was read last, makes it a tuple.
    fn keep_comma(&mut self) {
        self.free.pop();
    }

    /// The pairs of braces that aren't in the tree, of the body that was read from a token on: each begins with the first token behind
    /// the one before and the `;` behind that.
    fn free_braces(&mut self, from: usize, count: u32) {
        let mut at = from;
        for _ in 0..count {
            while self.toks[at].kind != Kind::Opener(Delim::Brace) {
                at += 1;
            }
            self.free.extend([at, self.partner[at] as usize]);
            at += 1;
        }
    }

    /// Where the tokens that say something of the tree stand, each with its length, and each attribute that is documentation as one.
    pub fn units(&self) -> Vec<(usize, usize)> {
        let mut is_free = vec![false; self.pos];
        for &at in &self.free {
            is_free[at] = true;
        }
        let mut docs = self.docs.clone();
        docs.sort_unstable();
        let mut units = Vec::new();
        let mut at = 0;
        for (from, to) in docs.into_iter().chain([(self.pos, self.pos)]) {
            units.extend(self.toks[at..from].iter().zip(&is_free[at..from]).filter(|it| !it.1).map(|it| (it.0.at, it.0.len)));
            if from < to {
                let (first, last) = (&self.toks[from], &self.toks[to - 1]);
                units.push((first.at, last.at + last.len - first.at));
            }
            at = to;
        }
        units
    }

    fn tok(&self, p: usize) -> Option<Token<'a>> {
        if p < self.end {
            Some(self.toks[p])
        } else {
            None
        }
    }

    fn kind(&self, p: usize) -> Option<Kind> {
        self.tok(p).map(|t| t.kind)
    }

    pub fn done(&self) -> bool {
        self.pos >= self.end
    }

    fn char_at(&self, p: usize, c: char) -> bool {
        self.tok(p).map_or(false, |t| t.kind == Kind::Punct && t.text.as_bytes()[0] == c as u8)
    }

    fn eat_char(&mut self, c: char) -> bool {
        let y = self.char_at(self.pos, c);
        if y {
            self.pos += 1;
        }
        y
    }

    fn need_char(&mut self, c: char) -> R<()> {
        if self.eat_char(c) {
            Ok(())
        } else {
            Err(())
        }
    }

    /// The operator at a place: the longest row of the table that the joint run there spells.
    fn op_at(&self, p: usize) -> &'a str {
        let a = match self.tok(p) {
            Some(t) if t.kind == Kind::Punct => t,
            _ => return "",
        };
        if a.joint {
            let b = self.toks[p + 1];
            let (x, y) = (a.text.as_bytes()[0], b.text.as_bytes()[0]);
            if b.joint {
                match (x, y, self.toks[p + 2].text.as_bytes()[0]) {
                    (b'<', b'<', b'=') => return "<<=",
                    (b'>', b'>', b'=') => return ">>=",
                    (b'.', b'.', b'.') => return "...",
                    (b'.', b'.', b'=') => return "..=",
                    _ => {}
                }
            }
            match (x, y) {
                (b'&', b'&') => return "&&",
                (b'|', b'|') => return "||",
                (b'=', b'=') => return "==",
                (b'!', b'=') => return "!=",
                (b'<', b'=') => return "<=",
                (b'>', b'=') => return ">=",
                (b'<', b'<') => return "<<",
                (b'>', b'>') => return ">>",
                (b'+', b'=') => return "+=",
                (b'-', b'=') => return "-=",
                (b'*', b'=') => return "*=",
                (b'/', b'=') => return "/=",
                (b'%', b'=') => return "%=",
                (b'^', b'=') => return "^=",
                (b'&', b'=') => return "&=",
                (b'|', b'=') => return "|=",
                (b'-', b'>') => return "->",
                (b'<', b'-') => return "<-",
                (b'=', b'>') => return "=>",
                (b':', b':') => return "::",
                (b'.', b'.') => return "..",
                _ => {}
            }
        }
        a.text
    }

    fn op(&self) -> &'a str {
        self.op_at(self.pos)
    }

    fn eat_op(&mut self, s: &str) -> bool {
        let y = self.op() == s;
        if y {
            self.pos += s.len();
        }
        y
    }

    fn need_op(&mut self, s: &str) -> R<()> {
        if self.eat_op(s) {
            Ok(())
        } else {
            Err(())
        }
    }

    fn kw_at(&self, p: usize, w: &str) -> bool {
        self.tok(p).map_or(false, |t| t.kind == Kind::Ident && t.text == w)
    }

    fn kw(&self, w: &str) -> bool {
        self.kw_at(self.pos, w)
    }

    fn eat_kw(&mut self, w: &str) -> bool {
        let y = self.kw(w);
        if y {
            self.pos += 1;
        }
        y
    }

    fn need_kw(&mut self, w: &str) -> R<()> {
        if self.eat_kw(w) {
            Ok(())
        } else {
            Err(())
        }
    }

    fn opens(&self, p: usize, d: Delim) -> bool {
        self.kind(p) == Some(Kind::Opener(d))
    }

    fn name_at(&self, p: usize) -> Option<Word<'a>> {
        let t = self.tok(p)?;
        match t.kind {
            Kind::RawIdent => Some(Word { raw: true, text: t.text }),
            Kind::Ident if word_class(t.text) == Class::Plain => Some(Word { raw: false, text: t.text }),
            _ => None,
        }
    }

    fn word_at(&self, p: usize) -> Option<Word<'a>> {
        if let Some(w) = self.name_at(p) {
            return Some(w);
        }
        let t = self.tok(p)?;
        if t.kind == Kind::Ident && word_class(t.text) == Class::PathWord {
            Some(Word { raw: false, text: t.text })
        } else {
            None
        }
    }

    fn name(&mut self) -> R<Word<'a>> {
        let w = self.name_at(self.pos).ok_or(())?;
        self.pos += 1;
        Ok(w)
    }

    fn word(&mut self) -> R<Word<'a>> {
        let w = self.word_at(self.pos).ok_or(())?;
        self.pos += 1;
        Ok(w)
    }

    fn name_or(&mut self) -> R<NameOr<'a>> {
        if self.kind(self.pos) == Some(Kind::Underscore) {
            self.pos += 1;
            return Ok(None);
        }
        self.name().map(Some)
    }

    fn lifetime(&mut self) -> Option<&'a str> {
        let t = self.tok(self.pos)?;
        if t.kind == Kind::Lifetime {
            self.pos += 1;
            Some(t.text)
        } else {
            None
        }
    }

    fn is_lifetime(&self, p: usize) -> bool {
        self.kind(p) == Some(Kind::Lifetime)
    }

    fn lit_at(&self, p: usize) -> Option<Token<'a>> {
        let t = self.tok(p)?;
        let y = match t.kind {
            Kind::Char
            | Kind::Str
            | Kind::RawStr
            | Kind::Byte
            | Kind::ByteStr
            | Kind::RawByteStr
            | Kind::CStr
            | Kind::RawCStr
            | Kind::Int
            | Kind::Float => true,
            Kind::Ident => t.text == "true" || t.text == "false",
            _ => false,
        };
        if y {
            Some(t)
        } else {
            None
        }
    }

    fn is_number(&self, p: usize) -> bool {
        matches!(self.kind(p), Some(Kind::Int | Kind::Float))
    }

    /// Reads the inside of the group at the front whole.
    fn group<T>(&mut self, d: Delim, f: impl FnOnce(&mut Self) -> R<T>) -> R<T> {
        if !self.opens(self.pos, d) {
            return Err(());
        }
        let close = self.partner[self.pos] as usize;
        let end = self.end;
        self.pos += 1;
        self.end = close;
        let r = f(self)?;
        if self.pos != close {
            return Err(());
        }
        self.pos = close + 1;
        self.end = end;
        Ok(r)
    }

    /// The tokens of the group at the front, its delimiters among them.
    fn group_tokens(&mut self) -> R<Tokens<'a>> {
        if !matches!(self.kind(self.pos), Some(Kind::Opener(_))) {
            return Err(());
        }
        let close = self.partner[self.pos] as usize;
        let r = self.toks[self.pos..=close].to_vec();
        self.pos = close + 1;
        Ok(r)
    }

    fn rest_tokens(&mut self) -> R<Tokens<'a>> {
        let r = self.toks[self.pos..self.end].to_vec();
        self.pos = self.end;
        if r.is_empty() {
            Err(())
        } else {
            Ok(r)
        }
    }

    fn deeper<T>(&mut self, f: impl FnOnce(&mut Self) -> R<T>) -> R<T> {
        if self.turns >= TURNS {
            return Err(());
        }
        self.turns += 1;
        let r = f(self);
        self.turns -= 1;
        r
    }

    /// Elements up to the end of the group, and whether a last comma was spelled, which is taken as one that says nothing.
    fn list<T>(&mut self, mut f: impl FnMut(&mut Self) -> R<T>) -> R<(Vec<T>, bool)> {
        let mut out = Vec::new();
        while !self.done() {
            out.push(f(self)?);
            if self.done() {
                return Ok((out, false));
            }
            self.need_op(",")?;
        }
        let comma = !out.is_empty();
        if comma {
            self.passed_free();
        }
        Ok((out, comma))
    }

    /// Elements up to a `>`, which is taken.
    fn angle<T>(&mut self, mut f: impl FnMut(&mut Self) -> R<T>) -> R<Vec<T>> {
        self.need_char('<')?;
        let mut out = Vec::new();
        loop {
            if self.char_at(self.pos, '>') {
                if !out.is_empty() {
                    self.passed_free();
                }
                self.pos += 1;
                return Ok(out);
            }
            out.push(f(self)?);
            if !self.eat_op(",") {
                self.need_char('>')?;
                return Ok(out);
            }
        }
    }
}
