//! Patterns.

use super::{Out, B, BC, BM};
use crate::tree::*;

impl<'t> Out<'t> {
    pub(super) fn value(&mut self, v: &'t Value<'_>) {
        if v.minus {
            self.text("-");
        }
        self.lit(&v.lit);
    }

    pub(super) fn span_end(&mut self, e: &'t Option<SpanEnd<'_>>) {
        match e {
            None => {}
            Some(SpanEnd::Value(v)) => self.value(v),
            Some(SpanEnd::Path(p)) => self.path(p, Style::Code),
        }
    }

    /// Where alternatives are allowed.
    pub(super) fn pat_alt(&mut self, p: &'t Pat<'_>) {
        if self.odd() {
            self.text("| ");
        }
        self.pat(p);
    }

    pub(super) fn pat(&mut self, p: &'t Pat<'_>) {
        match p {
            Pat::Or(l) => {
                self.i0();
                for (i, p) in l.iter().enumerate() {
                    if i > 0 {
                        self.brk(B);
                        self.text("| ");
                    }
                    self.pat(p);
                }
                self.end();
            }
            Pat::Value(v) => self.value(v),
            Pat::Wild => self.text("_"),
            Pat::Rest => self.text(".."),
            Pat::Call(c) => self.call(c),
            Pat::Path(p) => self.path(p, Style::Code),
            Pat::Bind { by_ref, mutable, name, sub } => {
                if *by_ref {
                    self.text("ref ");
                }
                if *mutable {
                    self.text("mut ");
                }
                self.word(name);
                if let Some(p) = sub {
                    self.text(" @ ");
                    self.pat(p);
                }
            }
            Pat::Span(a, eq, b) => {
                self.span_end(a);
                self.text(if *eq { "..=" } else { ".." });
                self.span_end(b);
            }
            Pat::Ref(m, p) => {
                self.text("&");
                if *m {
                    self.text("mut ");
                }
                self.pat(p);
            }
            Pat::Struct(path, fields, rest) => {
                self.path(path, Style::Code);
                self.braces(
                    fields,
                    *rest,
                    |s, f| {
                        s.attrs(&f.attrs);
                        if let Some(k) = &f.key {
                            s.key(k);
                            s.text(": ");
                            s.pat_alt(&f.pat);
                        } else {
                            s.pat(&f.pat);
                        }
                    },
                    |s| s.text(".."),
                );
            }
            Pat::TupleStruct(p, l) => {
                self.path(p, Style::Code);
                self.list("()", l, |s, p| s.pat_alt(p));
            }
            Pat::Tuple(l) if l.len() == 1 => {
                if l[0] == Pat::Rest {
                    self.text("(..)");
                    return;
                }
                self.text("(");
                self.pat_alt(&l[0]);
                self.text(",)");
            }
            Pat::Tuple(l) => self.list("()", l, |s, p| s.pat_alt(p)),
            Pat::Paren(p) => {
                self.text("(");
                self.pat_alt(p);
                self.text(")");
            }
            Pat::Slice(l) => self.list("[]", l, |s, p| s.pat_alt(p)),
        }
    }

    pub(super) fn key(&mut self, k: &'t Key<'_>) {
        match k {
            Key::Name(w) => self.word(w),
            Key::Int(t) => self.text(t.text),
        }
    }

    /// BRACES with an optional last part after which no comma stands.
    pub(super) fn braces<T>(&mut self, l: &'t [T], last: bool, mut f: impl FnMut(&mut Self, &'t T), g: impl FnOnce(&mut Self)) {
        if l.is_empty() && !last {
            self.text(" {}");
            return;
        }
        self.text(" {");
        self.c4();
        self.brk(B);
        for (i, x) in l.iter().enumerate() {
            if i > 0 {
                self.text(",");
                self.brk(B);
            }
            f(self, x);
        }
        if last {
            if !l.is_empty() {
                self.text(",");
                self.brk(B);
            }
            g(self);
        }
        if last {
            self.brk(BM);
        } else {
            self.last_comma(BC, BM);
        }
        self.end();
        self.text("}");
    }
}
