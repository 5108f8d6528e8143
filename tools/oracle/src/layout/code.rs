//! Blocks and expressions.

use super::{Out, B, BM, N, Z, ZM};
use crate::doc::{Break, Mark};
use crate::tree::*;
use crate::written::may_be_braced;

impl<'t> Out<'t> {
    /// BODY of a block.
    pub(super) fn block(&mut self, b: &'t Block<'_>, lead: bool) {
        self.body(lead, b.attrs.len() + b.stmts.len(), |s, i| {
            if i < b.attrs.len() {
                s.attr(&b.attrs[i]);
                return;
            }
            let k = i - b.attrs.len();
            let own = k > 0 && matches!(b.stmts[k - 1], Stmt::Expr { semi: false, .. });
            if !own && s.odd() {
                s.text(";");
                if s.odd() {
                    s.text(" ;");
                }
            }
            s.stmt(&b.stmts[k]);
            let own = matches!(b.stmts[k], Stmt::Expr { semi: false, .. });
            if !own && s.odd() {
                s.text(";");
            }
        });
    }

    pub(super) fn soft(&mut self, b: &'t Block<'_>) {
        if !is_soft(b) {
            self.block(b, true);
            return;
        }
        if let Stmt::Expr { expr, .. } = &b.stmts[0] {
            self.text(" {");
            self.brk(N);
            self.c4();
            self.brk(B);
            self.expr(expr);
            self.brk(BM);
            self.end();
            self.text("}");
        }
    }

    pub(super) fn stmt(&mut self, s: &'t Stmt<'_>) {
        match s {
            Stmt::Let { attrs, pat, ty, init } => {
                self.attrs(attrs);
                self.text("let ");
                self.pat(pat);
                if let Some(t) = ty {
                    self.text(": ");
                    self.ty(t);
                }
                if let Some((e, other)) = init {
                    self.text(" = ");
                    self.brk(N);
                    self.expr(e);
                    if let Some(b) = other {
                        self.text(" else");
                        self.block(b, true);
                    }
                }
                self.text(";");
            }
            Stmt::Item(i) => self.item(i),
            Stmt::Expr { attrs, expr, semi } => {
                self.attrs(attrs);
                self.expr(expr);
                if *semi {
                    self.text(";");
                }
            }
        }
    }

    pub(super) fn label(&mut self, l: &Option<&'t str>) {
        if let Some(l) = l {
            self.text(l);
            self.text(": ");
        }
    }

    pub(super) fn condition(&mut self, c: &'t Condition<'_>) {
        let many = c.links.len() > 1;
        if many {
            self.i4();
        }
        for (i, l) in c.links.iter().enumerate() {
            if i > 0 {
                self.brk(B);
                self.text("&& ");
            }
            match l {
                Link::Expr(e) => self.expr(e),
                Link::Let(p, e) => {
                    self.text("let ");
                    self.pat_alt(p);
                    self.text(" = ");
                    self.expr(e);
                }
            }
        }
        if many {
            self.end();
        }
    }

    pub(super) fn one_tuple(&mut self, e: &'t Expr<'_>) {
        self.text("(");
        self.expr(e);
        self.text(",)");
    }

    pub(super) fn exprs(&mut self, empty: &'static str, l: &'t [Expr<'_>]) {
        self.list(empty, l, |s, e| s.expr(e));
    }

    pub fn expr(&mut self, e: &'t Expr<'_>) {
        match e {
            Expr::Lit(t) => self.lit(t),
            Expr::Path(p) => self.path(p, Style::Code),
            Expr::Underscore => self.text("_"),
            Expr::Call(c) => self.call(c),
            Expr::Paren(x) => {
                self.text("(");
                self.expr(x);
                self.text(")");
            }
            Expr::Continue(l) => {
                self.text("continue");
                if let Some(l) = l {
                    self.text(" ");
                    self.text(l);
                }
            }
            Expr::Tuple(l) if l.len() == 1 => self.one_tuple(&l[0]),
            Expr::Tuple(l) => self.exprs("()", l),
            Expr::Array(l) => self.exprs("[]", l),
            Expr::Repeat(x, n) => {
                self.text("[");
                self.expr(x);
                self.text("; ");
                self.tok(n);
                self.text("]");
            }
            Expr::Struct(p, fields, base) => {
                self.path(p, Style::Code);
                self.braces(
                    fields,
                    base.is_some(),
                    |s, f| {
                        s.attrs(&f.attrs);
                        s.key(&f.key);
                        if let Some(v) = &f.value {
                            s.text(": ");
                            s.expr(v);
                        }
                    },
                    |s| {
                        s.text("..");
                        if let Some(Some(b)) = base {
                            s.dot = true;
                            s.expr(b);
                        }
                    },
                );
            }
            Expr::Block(l, b) => {
                self.label(l);
                self.block(b, false);
            }
            Expr::Unsafe(b) => {
                self.text("unsafe");
                self.soft(b);
            }
            Expr::ConstBlock(b) => {
                self.text("const");
                self.soft(b);
            }
            Expr::Async(m, b) => {
                self.text("async");
                if *m {
                    self.text(" move");
                }
                self.block(b, true);
            }
            Expr::If(parts, other) => {
                for (i, (c, b)) in parts.iter().enumerate() {
                    if i > 0 {
                        self.text(" else ");
                    }
                    self.i0();
                    self.text("if ");
                    self.condition(c);
                    self.end();
                    self.soft(b);
                }
                if let Some(b) = other {
                    self.text(" else");
                    self.soft(b);
                }
            }
            Expr::Match(x, attrs, arms) => {
                self.i0();
                self.text("match ");
                self.expr(x);
                self.end();
                self.body(true, attrs.len() + arms.len(), |s, i| {
                    if i < attrs.len() {
                        s.attr(&attrs[i])
                    } else {
                        s.arm(&arms[i - attrs.len()])
                    }
                });
            }
            Expr::Loop(l, b) => {
                self.label(l);
                self.text("loop");
                self.block(b, true);
            }
            Expr::While(l, c, b) => {
                self.label(l);
                self.i0();
                self.text("while ");
                self.condition(c);
                self.end();
                self.block(b, true);
            }
            Expr::For(l, p, x, b) => {
                self.label(l);
                self.i0();
                self.text("for ");
                self.pat_alt(p);
                self.text(" in ");
                self.expr(x);
                self.end();
                self.block(b, true);
            }
            Expr::Chain(_, f, r) => {
                self.i4();
                self.expr(f);
                for (o, x) in r {
                    self.brk(B);
                    self.text(o.text());
                    self.text(" ");
                    self.expr(x);
                }
                self.end();
            }
            Expr::Cast(x, tys) => {
                self.expr(x);
                for t in tys {
                    self.text(" as ");
                    self.ty(t);
                }
            }
            Expr::Unary(ops, x) => {
                for o in ops {
                    self.text(match o {
                        Prefix::Neg => "-",
                        Prefix::Deref => "*",
                        Prefix::Bang => "!",
                        Prefix::Amp => "&",
                        Prefix::AmpMut => "&mut ",
                        Prefix::RawConst => "&raw const ",
                        Prefix::RawMut => "&raw mut ",
                    });
                }
                self.expr(x);
            }
            Expr::Range(a, eq, b) => {
                if let Some(a) = a {
                    self.expr(a);
                }
                self.text(if *eq { "..=" } else { ".." });
                if let Some(b) = b {
                    self.expr(b);
                }
            }
            Expr::Assign(ts, v) => {
                for (x, o) in ts {
                    self.expr(x);
                    self.text(" ");
                    self.text(o.text());
                    self.text(" ");
                    self.brk(N);
                }
                self.expr(v);
            }
            Expr::Postfix(x, steps) => self.postfix(x, steps),
            Expr::Closure(c) => self.closure(c),
            Expr::Return(x) => {
                self.text("return");
                if let Some(x) = x {
                    self.text(" ");
                    self.expr(x);
                }
            }
            Expr::Break(l, x) => {
                self.text("break");
                if let Some(l) = l {
                    self.text(" ");
                    self.text(l);
                }
                if let Some(x) = x {
                    self.text(" ");
                    self.expr(x);
                }
            }
        }
    }

    pub(super) fn postfix(&mut self, x: &'t Expr<'_>, steps: &'t [Step<'_>]) {
        let many = steps.iter().filter(|s| matches!(s, Step::Method(..))).count() >= 2;
        if many {
            self.c4();
        }
        self.expr(x);
        let mut seen = false;
        for s in steps {
            match s {
                Step::Field(n) => {
                    self.text(".");
                    self.word(n);
                }
                Step::Index(t) => {
                    self.text(".");
                    self.text(t.text);
                }
                Step::Method(n, fish, l) => {
                    if seen {
                        self.brk(Z);
                    }
                    seen = true;
                    self.text(".");
                    self.word(n);
                    if let Some(a) = fish {
                        self.text("::");
                        self.list("<>", a, |s, a| s.arg(a));
                    }
                    self.exprs("()", l);
                }
                Step::Call(l) => self.exprs("()", l),
                Step::At(x) => {
                    self.c4();
                    self.text("[");
                    self.brk(Z);
                    self.expr(x);
                    self.brk(ZM);
                    self.end();
                    self.text("]");
                }
                Step::Try => self.text("?"),
                Step::Await => self.text(".await"),
            }
        }
        if many {
            self.end();
        }
    }

    pub(super) fn closure(&mut self, c: &'t Closure<'_>) {
        if c.is_async {
            self.text("async ");
        }
        if c.is_move {
            self.text("move ");
        }
        self.list("||", &c.params, |s, p| {
            s.attrs_inline(&p.attrs);
            s.pat(&p.pat);
            if let Some(t) = &p.ty {
                s.text(": ");
                s.ty(t);
            }
        });
        match &c.body {
            ClosureBody::Ret(t, b) => {
                self.text(" -> ");
                self.ty(t);
                self.block(b, true);
            }
            ClosureBody::Expr(e, _) => {
                self.text(" ");
                let braces = may_be_braced(e);
                if braces && self.odd() {
                    self.braced(e);
                    return;
                }
                let plain = !braces || matches!(e, Expr::Block(None, _));
                if plain {
                    self.expr(e);
                    return;
                }
                self.brk(N);
                self.c4();
                self.brk(Break { before: Mark::OpenBrace, ..Z });
                self.expr(e);
                self.brk(Break { after: Mark::CloseBrace, ..ZM });
                self.end();
            }
        }
    }

    /// An expression within braces that aren't in the tree.
    pub(super) fn braced(&mut self, e: &'t Expr<'_>) {
        self.text("{");
        if self.odd() {
            self.text(";");
        }
        self.text(" ");
        if self.odd() {
            self.braced(e);
        } else {
            self.expr(e);
        }
        self.text(" }");
    }

    pub(super) fn arm(&mut self, a: &'t Arm<'_>) {
        self.attrs(&a.attrs);
        self.i0();
        self.pat_alt(&a.pat);
        if let Some(g) = &a.guard {
            self.text(" if ");
            self.expr(g);
        }
        self.end();
        self.text(" => ");
        self.brk(N);
        if !matches!(a.body, Expr::Call(_)) && self.odd() {
            self.braced(&a.body);
            if self.odd() {
                self.text(",");
            }
            return;
        }
        if self.loose.is_some() && block_like(&a.body) {
            self.expr(&a.body);
            if self.odd() {
                self.text(",");
            }
            return;
        }
        match &a.body {
            Expr::Block(None, b) => self.block(b, false),
            Expr::Call(c) => {
                self.call(c);
                self.text(",");
            }
            e => {
                self.c4();
                self.brk(Break { before: Mark::OpenBrace, ..Z });
                self.expr(e);
                self.brk(Break { after: Mark::CloseBrace, instead: Mark::Comma, ..ZM });
                self.end();
            }
        }
    }
}
