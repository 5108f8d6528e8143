//! Paths, types and generics.

use super::{Out, B, BC, BM, N, Z, ZC, ZM};
use crate::lex::{Kind, Token};
use crate::tree::*;

impl<'t> Out<'t> {
    pub(super) fn path(&mut self, p: &'t Path<'_>, style: Style) {
        if let Some(q) = &p.qself {
            self.text("<");
            self.ty(&q.ty);
            if let Some(of) = &q.of {
                self.text(" as ");
                self.path(of, Style::Kind);
            }
            self.text(">::");
        } else if p.global {
            self.text("::");
        }
        for (i, s) in p.segments.iter().enumerate() {
            if i > 0 {
                self.text("::");
            }
            self.word(&s.word);
            let opt = style == Style::Kind && matches!(s.args, Args::Angle(_)) && self.odd();
            if (style == Style::Code || opt) && matches!(s.args, Args::Angle(_)) {
                self.text("::");
            }
            self.args(&s.args);
        }
    }

    pub(super) fn args(&mut self, a: &'t Args<'_>) {
        match a {
            Args::None => {}
            Args::Angle(l) => self.list("<>", l, |s, a| s.arg(a)),
            Args::Round(l, r) => {
                self.list("()", l, |s, t| s.ty(t));
                if let Some(r) = r {
                    self.text(" -> ");
                    self.ty(r);
                }
            }
        }
    }

    pub(super) fn const_arg(&mut self, c: &'t [Token<'_>]) {
        if matches!(c[0].kind, Kind::Opener(_)) {
            self.tokens(c);
        } else {
            for t in c {
                self.token(t);
            }
        }
    }

    pub(super) fn arg(&mut self, a: &'t Arg<'_>) {
        match a {
            Arg::Lifetime(l) => self.text(l),
            Arg::Type(t) => self.ty(t),
            Arg::Const(c) => self.const_arg(c),
            Arg::EqualType(w, a, t) => {
                self.word(w);
                self.args(a);
                self.text(" = ");
                self.ty(t);
            }
            Arg::EqualConst(w, a, c) => {
                self.word(w);
                self.args(a);
                self.text(" = ");
                self.const_arg(c);
            }
            Arg::Limit(w, a, b) => {
                self.word(w);
                self.args(a);
                self.text(": ");
                self.bounds(b);
            }
        }
    }

    pub(super) fn bounds(&mut self, b: &'t Bounds<'_>) {
        self.i4();
        for (i, x) in b.iter().enumerate() {
            if i > 0 {
                self.brk(B);
                self.text("+ ");
            }
            match x {
                Bound::Lifetime(l) => self.text(l),
                Bound::Captures(l) => {
                    self.text("use");
                    self.list("<>", l, |s, c| match c {
                        Capture::Lifetime(l) => s.text(l),
                        Capture::Word(w) => s.word(w),
                    });
                }
                Bound::Trait { paren, maybe, binder, path } => {
                    if *paren {
                        self.text("(");
                    }
                    if *maybe {
                        self.text("?");
                    }
                    if let Some(b) = binder {
                        self.binder(b);
                    }
                    self.path(path, Style::Kind);
                    if *paren {
                        self.text(")");
                    }
                }
            }
        }
        self.end();
    }

    pub(super) fn binder(&mut self, b: &'t Binder<'_>) {
        self.text("for");
        self.list("<>", b, |s, p| s.life_param(p));
        self.text(" ");
    }

    pub(super) fn life_param(&mut self, p: &'t LifeParam<'_>) {
        self.attrs_inline(&p.attrs);
        self.text(p.name);
        if !p.bounds.is_empty() {
            self.text(": ");
            self.lifes(&p.bounds);
        } else if self.odd() {
            self.text(": ");
        }
    }

    pub(super) fn lifes(&mut self, l: &'t [&'_ str]) {
        for (i, x) in l.iter().enumerate() {
            if i > 0 {
                self.text(" + ");
            }
            self.text(x);
        }
    }

    pub(super) fn ret(&mut self, t: &'t Option<Ty<'_>>) {
        if let Some(t) = t {
            self.text(" -> ");
            self.ty(t);
        }
    }

    pub(super) fn abi(&mut self, a: &'t Option<Abi<'_>>) {
        if let Some(a) = a {
            self.text("extern ");
            if let Some(n) = a.name {
                self.text(n);
                self.text(" ");
            }
        }
    }

    pub(super) fn ty(&mut self, t: &'t Ty<'_>) {
        match t {
            Ty::Path(p) => self.path(p, Style::Kind),
            Ty::Call(c) => self.call(c),
            Ty::Paren(t) => {
                self.text("(");
                self.ty(t);
                self.text(")");
            }
            Ty::Tuple(l) if l.len() == 1 => {
                self.text("(");
                self.ty(&l[0]);
                self.text(",)");
            }
            Ty::Tuple(l) => self.list("()", l, |s, t| s.ty(t)),
            Ty::Never => self.text("!"),
            Ty::Infer => self.text("_"),
            Ty::Ptr(m, t) => {
                self.text(if *m { "*mut " } else { "*const " });
                self.ty(t);
            }
            Ty::Ref(l, m, t) => {
                self.text("&");
                if let Some(l) = l {
                    self.text(l);
                    self.text(" ");
                }
                if *m {
                    self.text("mut ");
                }
                self.ty(t);
            }
            Ty::Slice(t) => {
                self.text("[");
                self.ty(t);
                self.text("]");
            }
            Ty::Array(t, n) => {
                self.text("[");
                self.ty(t);
                self.text("; ");
                self.tok(n);
                self.text("]");
            }
            Ty::Func(f) => {
                if let Some(b) = &f.binder {
                    self.binder(b);
                }
                if f.unsafe_ {
                    self.text("unsafe ");
                }
                self.abi(&f.abi);
                self.text("fn");
                self.params(&f.params, f.variadic, f.variadic, |s, p| {
                    s.attrs_inline(&p.attrs);
                    if let Some(n) = &p.name {
                        s.name_or(n);
                        s.text(": ");
                    }
                    s.ty(&p.ty);
                });
                self.ret(&f.ret);
            }
            Ty::Impl(b) => {
                self.text("impl ");
                self.bounds(b);
            }
            Ty::Dyn(b) => {
                self.text("dyn ");
                self.bounds(b);
            }
        }
    }

    /// LIST((, )), with a further `...` where `dots`, and Z- for Zc where `open`.
    pub(super) fn params<T>(&mut self, l: &'t [T], dots: bool, open: bool, mut f: impl FnMut(&mut Self, &'t T)) {
        if l.is_empty() && !dots {
            self.text("()");
            return;
        }
        self.c4();
        self.text("(");
        self.brk(Z);
        for (i, x) in l.iter().enumerate() {
            if i > 0 {
                self.text(",");
                self.brk(B);
            }
            f(self, x);
        }
        if dots {
            if !l.is_empty() {
                self.text(",");
                self.brk(B);
            }
            self.text("...");
        }
        if open {
            self.brk(ZM);
        } else {
            self.last_comma(ZC, ZM);
        }
        self.text(")");
        self.end();
    }

    pub(super) fn generics(&mut self, g: &'t Generics<'_>) {
        if g.params.is_empty() {
            if self.odd() {
                self.text("<>");
            }
            return;
        }
        self.list("<>", &g.params, |s, p| match p {
            Param::Life(l) => s.life_param(l),
            Param::Type { attrs, name, bounds, default } => {
                s.attrs_inline(attrs);
                s.word(name);
                s.colon_bounds(bounds);
                if let Some(t) = default {
                    s.text(" = ");
                    s.ty(t);
                }
            }
            Param::Const { attrs, name, ty, default } => {
                s.attrs_inline(attrs);
                s.text("const ");
                s.word(name);
                s.text(": ");
                s.ty(ty);
                if let Some(c) = default {
                    s.text(" = ");
                    s.const_arg(c);
                }
            }
        });
    }

    pub(super) fn colon_bounds(&mut self, b: &'t Bounds<'_>) {
        if !b.is_empty() {
            self.text(": ");
            self.bounds(b);
        } else if self.odd() {
            self.text(": ");
        }
    }

    pub(super) fn wheres(&mut self, w: &'t Wheres<'_>, body: bool) {
        if w.is_empty() {
            if self.odd() {
                self.text(" where ");
            }
            return;
        }
        self.brk(N);
        self.c4();
        self.brk(BM);
        self.text("where");
        self.brk(B);
        for (i, p) in w.iter().enumerate() {
            if i > 0 {
                self.text(",");
                self.brk(B);
            }
            match p {
                Pred::Life(l, b) => {
                    self.text(l);
                    if b.is_empty() {
                        self.text(":");
                    } else {
                        self.text(": ");
                        self.lifes(b);
                    }
                }
                Pred::Type(binder, t, b) => {
                    if let Some(b) = binder {
                        self.binder(b);
                    }
                    self.ty(t);
                    if b.is_empty() {
                        self.text(":");
                    } else {
                        self.text(": ");
                        self.bounds(b);
                    }
                }
            }
        }
        if body {
            self.last_comma(BC, BM);
        } else if self.odd() {
            self.text(",");
        }
        self.end();
    }
}
