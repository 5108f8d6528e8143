//! Random trees, and texts that spell them.

mod code;
mod items;
mod patterns;
mod soup;
mod types;

use crate::depth::Depth;
use crate::layout::{lay, lay_loose};
use crate::lex::{doc_form, lex, DocForm, Kind, Token};
use crate::nest::nest;
use crate::render::{render, text, Choice};
use crate::rng::Rng;
use crate::tree::*;
use crate::written;
use std::borrow::Cow;

type E = Expr<'static>;

fn tok(kind: Kind, text: &'static str) -> Token<'static> {
    Token { kind, text, joint: false, at: 0, len: 0 }
}

fn leak(s: String) -> &'static str {
    Box::leak(s.into_boxed_str())
}

#[rustfmt::skip]
const NAMES: [&str; 12] = [
    "a", "b", "c", "f", "A", "Bc", "raw", "union", "safe", "gen", "macro_rules", "aaaaaaaaaaaaaaaaaaaaaaaaaaaaaaaaaaaaaaaa",
];

/// Makes trees as it draws. The fuel bounds their size: where it is used up, only leaves are made.
pub struct Gen<'r> {
    pub r: &'r mut Rng,
    fuel: i32,
}

impl<'r> Gen<'r> {
    pub fn new(r: &'r mut Rng, fuel: i32) -> Self {
        Gen { r, fuel }
    }

    /// A number below k.
    fn n(&mut self, k: u64) -> u64 {
        self.r.below(k)
    }

    /// Yes, by a chance of a in b.
    fn yes(&mut self, a: u64, b: u64) -> bool {
        self.r.chance(a, b)
    }

    /// Takes fuel, and tells whether it is used up.
    fn low(&mut self) -> bool {
        self.fuel = self.fuel.saturating_sub(1);
        self.fuel <= 0
    }

    /// A list of `from` parts at least, and of k more at most.
    fn many<T>(&mut self, from: u64, k: u64, mut f: impl FnMut(&mut Self) -> T) -> Vec<T> {
        let n = from + if self.fuel <= 0 { 0 } else { self.n(k + 1) };
        (0..n).map(|_| f(self)).collect()
    }

    /// A part by a chance of a in b.
    fn maybe<T>(&mut self, a: u64, b: u64, f: impl FnOnce(&mut Self) -> T) -> Option<T> {
        if self.yes(a, b) {
            Some(f(self))
        } else {
            None
        }
    }

    fn name(&mut self) -> Word<'static> {
        if self.yes(1, 15) {
            return Word { raw: true, text: *self.r.pick(&["fn", "a", "match", "raw"]) };
        }
        Word { raw: false, text: *self.r.pick(&NAMES) }
    }

    fn word(&mut self) -> Word<'static> {
        if self.yes(1, 8) {
            return Word { raw: false, text: *self.r.pick(&["self", "Self", "crate", "super"]) };
        }
        self.name()
    }

    fn life(&mut self) -> &'static str {
        *self.r.pick(&["'a", "'b", "'static", "'_"])
    }

    /// Balanced tokens of up to n draws.
    fn soup(&mut self, n: u64) -> Tokens<'static> {
        loop {
            let k = 1 + self.n(n);
            let t = leak(soup::tokens(self.r, k));
            if let Ok(l) = lex(t, 0) {
                if !l.is_empty() && nest(&l).is_ok() {
                    return l;
                }
            }
        }
    }

    /// Tokens within delimiters.
    fn group(&mut self) -> Tokens<'static> {
        loop {
            let k = self.n(12);
            let (o, c) = *self.r.pick(&[("(", ")"), ("[", "]"), ("{", "}")]);
            let t = leak(format!("{o} {} \n{c}", soup::tokens(self.r, k)));
            if let Ok(l) = lex(t, 0) {
                if nest(&l).map_or(false, |p| p[0] as usize + 1 == l.len()) {
                    return l;
                }
            }
        }
    }

    fn call(&mut self) -> MacroCall<'static> {
        let path = self.path(Style::Simple);
        MacroCall { path, tokens: self.group() }
    }

    fn attr(&mut self, inner: bool) -> Attr<'static> {
        match self.n(4) {
            0 => {
                let t = *self.r.pick(&[" x", "", "x/*", " a\nb", "!", "a\n /* */ ", "tab\t"]);
                if doc_form(t, inner) == DocForm::Neither {
                    return self.attr(inner);
                }
                Attr::Doc { inner, text: Cow::Borrowed(t) }
            }
            1 => Attr::Meta { inner, path: MetaPath::Unsafe, input: Input::Group(self.group()) },
            2 => Attr::Meta { inner, path: MetaPath::Path(self.path(Style::Simple)), input: Input::Value(self.soup(4)) },
            _ => Attr::Meta { inner, path: MetaPath::Path(self.path(Style::Simple)), input: Input::Bare },
        }
    }

    fn attrs(&mut self, k: u64) -> Vec<Attr<'static>> {
        if self.yes(1, k) {
            self.many(1, 1, |g| g.attr(false))
        } else {
            vec![]
        }
    }
}

/// The file of a seed: one item, which can be written and is no deeper than files may be.
pub fn file(seed: u64) -> File<'static> {
    let mut draw = Rng(seed);
    loop {
        let fuel = 3 + draw.below(40) as i32;
        let item = Gen::new(&mut draw, fuel).item();
        if written::item(&item) && Depth.item(&item) <= 250 {
            return File { shebang: None, attrs: vec![], items: vec![item] };
        }
    }
}

/// A text that spells the file of a seed: with optional tokens here and there, broken at a width that is drawn or anywhere.
pub fn spelled(seed: u64) -> String {
    let file = file(seed);
    let mut draw = Rng(!seed);
    let stream = lay_loose(&file, draw.next());
    let margin = *draw.pick(&[1, 30, 60, 89, 1000]);
    let (groups, breaks) = (draw.below(257), draw.below(257));
    if draw.chance(1, 2) {
        return render(&stream, Choice::Margin(margin, margin.min(60)));
    }
    render(&stream, Choice::Random(&mut draw, groups, breaks))
}

/// The text of the file of a seed with one to three of its tokens deleted, doubled, swapped, put in, or moved apart.
pub fn changed(seed: u64) -> String {
    let out = text(&lay(&file(seed)));
    let tokens = lex(&out, 0).expect("what is laid out has tokens");
    let mut pieces: Vec<(String, bool)> = Vec::new();
    for (i, token) in tokens.iter().enumerate() {
        let end = token.at + token.len;
        let is_glued = tokens.get(i + 1).is_some_and(|next| next.at == end);
        pieces.push((out[token.at..end].to_string(), is_glued));
    }
    let mut draw = Rng(!seed);
    for _ in 0..1 + draw.below(3) {
        if pieces.len() < 2 {
            break;
        }
        let at = draw.below(pieces.len() as u64) as usize;
        let other = draw.below(pieces.len() as u64) as usize;
        match draw.below(6) {
            0 => {
                pieces.remove(at);
            }
            1 => pieces[at].0 = soup::piece(&mut draw).to_string(),
            2 => pieces.insert(at, (soup::piece(&mut draw).to_string(), draw.chance(1, 2))),
            3 => pieces[at].1 = !pieces[at].1,
            4 => {
                let piece = pieces[at].clone();
                pieces.insert(other, piece);
            }
            _ => pieces.swap(at, other),
        }
    }
    let mut joined = String::new();
    for (piece, is_glued) in &pieces {
        joined.push_str(piece);
        if piece.starts_with("//") && !piece.ends_with('\n') {
            joined.push('\n');
        } else if !is_glued {
            joined.push(' ');
        }
    }
    joined
}
