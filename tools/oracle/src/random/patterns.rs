//! Literals and patterns.

use super::{tok, Gen};
use crate::lex::{Kind, Token};
use crate::tree::*;

impl<'r> Gen<'r> {
    pub(super) fn number(&mut self) -> Token<'static> {
        let (k, t) = *self.r.pick(&[
            (Kind::Int, "1"),
            (Kind::Int, "0"),
            (Kind::Int, "2u8"),
            (Kind::Int, "0x1f"),
            (Kind::Float, "1."),
            (Kind::Float, "2.5"),
            (Kind::Float, "1e5"),
            (Kind::Float, "3f_"),
            (Kind::Float, "1.5f32"),
        ]);
        if t == "3f_" {
            return tok(Kind::Int, "3f_");
        }
        tok(k, t)
    }

    pub(super) fn lit(&mut self) -> Token<'static> {
        if self.yes(1, 2) {
            return self.number();
        }
        let (k, t) = *self.r.pick(&[
            (Kind::Str, "\"s\""),
            (Kind::Str, "\"a\n b\""),
            (Kind::Char, "'c'"),
            (Kind::RawStr, "r#\"q\"#"),
            (Kind::Byte, "b'x'"),
            (Kind::CStr, "c\"x\""),
            (Kind::Str, "\"x.\"suf"),
            (Kind::Ident, "true"),
            (Kind::Ident, "false"),
            (Kind::Str, "\"end.\""),
        ]);
        tok(k, t)
    }

    pub(super) fn value(&mut self) -> Value<'static> {
        if self.yes(1, 3) {
            return Value { minus: true, lit: self.number() };
        }
        Value { minus: false, lit: self.lit() }
    }

    pub(super) fn pat(&mut self, alt: bool) -> Pat<'static> {
        if self.low() {
            return Pat::Bind { by_ref: false, mutable: false, name: self.name(), sub: None };
        }
        match self.n(18) {
            0 if alt => Pat::Or(self.many(2, 2, |g| g.pat(false))),
            0 | 1 => Pat::Value(self.value()),
            2 => Pat::Wild,
            3 => Pat::Rest,
            4 => Pat::Call(self.call()),
            5 => loop {
                let p = self.path(Style::Code);
                let s = &p.segments[0];
                let single = p.qself.is_none() && !p.global && p.segments.len() == 1 && s.args == Args::None;
                if single && (s.word.raw || !matches!(s.word.text, "Self" | "crate" | "super")) {
                    continue;
                }
                return Pat::Path(p);
            },
            6 | 7 => {
                let sub = self.maybe(1, 4, |g| Box::new(g.pat(false)));
                Pat::Bind { by_ref: self.yes(1, 4), mutable: self.yes(1, 4), name: self.name(), sub }
            }
            8 | 9 => {
                let f = |g: &mut Self| if g.yes(1, 2) { SpanEnd::Value(g.value()) } else { SpanEnd::Path(g.path(Style::Code)) };
                let a = self.maybe(2, 3, f);
                let eq = self.yes(1, 2);
                let b = if eq || a.is_none() { Some(f(self)) } else { self.maybe(1, 2, f) };
                Pat::Span(a, eq, b)
            }
            10 | 11 => loop {
                let m = self.yes(1, 3);
                let p = self.pat(false);
                if matches!(p, Pat::Span(..)) || (!m && matches!(p, Pat::Bind { by_ref: false, mutable: true, .. })) {
                    continue;
                }
                return Pat::Ref(m, Box::new(p));
            },
            12 | 13 => {
                let p = self.path(Style::Code);
                let f = self.many(0, 2, |g| {
                    let attrs = g.attrs(8);
                    match g.n(3) {
                        0 => FieldPat {
                            attrs,
                            key: None,
                            pat: Pat::Bind { by_ref: g.yes(1, 3), mutable: g.yes(1, 3), name: g.name(), sub: None },
                        },
                        1 => FieldPat { attrs, key: Some(Key::Int(tok(Kind::Int, "0"))), pat: g.pat(true) },
                        _ => FieldPat { attrs, key: Some(Key::Name(g.name())), pat: g.pat(true) },
                    }
                });
                Pat::Struct(p, f, self.yes(1, 3))
            }
            14 => {
                let p = self.path(Style::Code);
                Pat::TupleStruct(p, self.many(0, 2, |g| g.pat(true)))
            }
            15 => Pat::Tuple(self.many(0, 3, |g| g.pat(true))),
            16 => loop {
                let p = self.pat(true);
                if p != Pat::Rest {
                    return Pat::Paren(Box::new(p));
                }
            },
            _ => Pat::Slice(self.many(0, 3, |g| g.pat(true))),
        }
    }
}
