//! Token lists, by the pairs of docs/GRAMMAR.md.

use super::{Out, B, BM, H, HM, Z, ZM};
use crate::doc::Break;
use crate::lex::{doc_form, is_dot, word_class, Class, Delim, DocForm, Kind, Token};
use crate::tree::*;

/// What stands before a place in a token list, at its level.
#[derive(Clone, Copy)]
enum Elem {
    Token(usize),
    Group(Delim),
}

impl<'t> Out<'t> {
    pub(super) fn token(&mut self, t: &Token<'t>) {
        match t.kind {
            Kind::RawIdent => {
                self.text("r#");
                self.text(t.text);
            }
            Kind::Doc { inner, .. } => self.doc(inner, t.text),
            _ => self.text(t.text),
        }
    }

    pub(super) fn doc(&mut self, inner: bool, s: &'t str) {
        if doc_form(s, inner) == DocForm::Block {
            self.text(if inner { "/*!" } else { "/**" });
            self.text(s);
            self.text("*/");
        } else {
            self.text(if inner { "//!" } else { "///" });
            self.text(s);
        }
    }

    pub(super) fn tok(&mut self, l: &'t [Token<'_>]) {
        self.i4();
        self.tokens(l);
        self.end();
        if l.last().map_or(false, is_line_doc) {
            self.brk(H);
        }
    }

    /// The elements of a token list, by the pair table; nesting is walked with a list of its own.
    pub(super) fn tokens(&mut self, l: &'t [Token<'_>]) {
        let fish = turbofish(l);
        let mut prev: [Option<Elem>; 2] = [None, None];
        let mut outer: Vec<[Option<Elem>; 2]> = Vec::new();
        let mut i = 0;
        while i < l.len() {
            let t = &l[i];
            if let Kind::Closer(d) = t.kind {
                self.end();
                let hard = matches!(prev[0], Some(Elem::Token(j)) if is_line_doc(&l[j]));
                self.brk(if hard {
                    HM
                } else if d == Delim::Brace {
                    BM
                } else {
                    ZM
                });
                self.text(t.text);
                self.end();
                let p = outer.pop().unwrap();
                prev = [Some(Elem::Group(d)), p[0]];
                i += 1;
                continue;
            }
            if let Some(left) = prev[0] {
                let b = between(l, &fish, prev[1], left, i);
                if let Some(b) = b {
                    self.brk(b);
                }
            }
            match t.kind {
                Kind::Opener(d) => {
                    if matches!(l[i + 1].kind, Kind::Closer(_)) {
                        self.text(match d {
                            Delim::Paren => "()",
                            Delim::Bracket => "[]",
                            Delim::Brace => "{}",
                        });
                        prev = [Some(Elem::Group(d)), prev[0]];
                        i += 2;
                        continue;
                    }
                    self.c4();
                    self.text(t.text);
                    self.brk(if d == Delim::Brace { B } else { Z });
                    self.i0();
                    outer.push(prev);
                    prev = [None, None];
                }
                _ => {
                    self.token(t);
                    prev = [Some(Elem::Token(i)), prev[0]];
                }
            }
            i += 1;
        }
    }

    pub(super) fn call(&mut self, c: &'t MacroCall<'_>) {
        self.path(&c.path, Style::Simple);
        self.text(if is_braced(c) { "! " } else { "!" });
        self.tokens(&c.tokens);
    }
}

fn is_line_doc(t: &Token<'_>) -> bool {
    matches!(t.kind, Kind::Doc { inner, .. } if doc_form(t.text, inner) == DocForm::Line)
}

fn punct(t: &Token<'_>, c: &str) -> bool {
    t.kind == Kind::Punct && t.text == c
}

fn is_word(t: &Token<'_>) -> bool {
    matches!(t.kind, Kind::Ident | Kind::RawIdent)
}

/// A Strict word. A RawIdent is never one.
fn is_keyword(t: &Token<'_>) -> bool {
    t.kind == Kind::Ident && word_class(t.text) == Class::Strict
}

/// For each token: 1 it is in the turbofish, 2 it closes it as well.
fn turbofish(l: &[Token<'_>]) -> Vec<u8> {
    let mut f = vec![0u8; l.len()];
    let mut t = 0u32;
    for i in 0..l.len() {
        let joint_before = |c: &str| i > 0 && punct(&l[i - 1], c) && l[i - 1].joint;
        if punct(&l[i], "<") {
            if t > 0 || joint_before(":") {
                t += 1;
            }
            if t > 0 {
                f[i] = 1;
            }
        } else if punct(&l[i], ">") {
            if t > 0 {
                f[i] = 1;
                if !joint_before("-") && !joint_before("=") {
                    t -= 1;
                    if t == 0 {
                        f[i] = 2;
                    }
                }
            }
        }
    }
    f
}

fn is_index(l: &[Token<'_>], i: usize) -> bool {
    l[i].kind == Kind::Int
        && l[i].text.bytes().all(|b| b.is_ascii_digit())
        && i > 0
        && is_dot(&l[i - 1])
        && !(i > 1 && is_dot(&l[i - 2]) && l[i - 2].joint)
}

/// The pair table: what stands between `left` (before it `before`) and the element that begins at `r`.
fn between(l: &[Token<'_>], fish: &[u8], before: Option<Elem>, left: Elem, r: usize) -> Option<Break> {
    let glued = None;
    let gap = Some(B);
    let right = &l[r];
    let group = match right.kind {
        Kind::Opener(d) => Some(d),
        _ => None,
    };
    let lt = match left {
        Elem::Token(i) => Some(&l[i]),
        Elem::Group(_) => None,
    };
    let li = match left {
        Elem::Token(i) => i,
        Elem::Group(_) => usize::MAX,
    };
    let is_doc = |t: &Token<'_>| matches!(t.kind, Kind::Doc { .. });
    let l_is = |c: &str| lt.map_or(false, |t| punct(t, c));
    let r_is = |c: &str| punct(right, c);
    if lt.map_or(false, is_line_doc) {
        return Some(H);
    } // 1
    if lt.map_or(false, is_doc) || is_doc(right) {
        return gap;
    } // 2
    if lt.map_or(false, |t| t.joint) {
        return glued;
    } // 3
    if r_is(",") || r_is(";") {
        return glued;
    } // 4
    if lt.map_or(false, |t| t.kind == Kind::Punct) && right.kind == Kind::Punct {
        return gap;
    } // 5
    if r_is(".") && lt.map_or(false, |t| t.kind == Kind::Float || (t.kind == Kind::Int && !is_index(l, li))) {
        return gap;
    } // 6
    if r_is(".") || r_is("?") || r_is(":") {
        return glued;
    } // 7
    let plain_word = lt.map_or(false, |t| is_word(t) && !is_keyword(t));
    if r_is("!") && !right.joint && plain_word {
        return glued;
    } // 8
    if l_is(".") {
        return glued;
    } // 9
    if l_is(":") && is_word(right) && matches!(before, Some(Elem::Token(j)) if punct(&l[j], ":") && l[j].joint) {
        return glued;
    }
    if (l_is("!") || l_is("$")) && group != Some(Delim::Brace) {
        return glued;
    } // 10
    if l_is("#") && group == Some(Delim::Bracket) {
        return glued;
    } // 11
    if l_is("&") || l_is("*") || l_is("-") {
        // 12
        let y = match before {
            None => true,
            Some(Elem::Group(_)) => false,
            Some(Elem::Token(j)) => {
                let t = &l[j];
                !t.joint && ((t.kind == Kind::Punct && t.text != "?") || is_keyword(t))
            }
        };
        if y {
            return glued;
        }
    }
    if l_is("<") && fish[li] > 0 {
        return glued;
    } // 13
    if (r_is("<") || r_is(">")) && fish[r] > 0 {
        return glued;
    }
    if l_is(">") && fish[li] == 2 && group == Some(Delim::Paren) {
        return glued;
    }
    if matches!(group, Some(Delim::Paren | Delim::Bracket)) // 14
        && (plain_word || matches!(left, Elem::Group(Delim::Paren | Delim::Bracket)))
    {
        return glued;
    }
    gap // 15
}
