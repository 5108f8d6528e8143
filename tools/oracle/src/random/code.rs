//! Blocks and expressions.

use super::{tok, Gen, E};
use crate::lex::Kind;
use crate::read::is_plain_number;
use crate::tree::*;
use crate::written::{stands, Place, Start};

impl<'r> Gen<'r> {
    pub(super) fn op(&mut self, l: u8) -> Op {
        let v: Vec<Op> = OPS.iter().filter(|o| o.2 == l).map(|o| o.0).collect();
        *self.r.pick(&v)
    }

    pub(super) fn free(&mut self) -> E {
        self.expr(Place::FREE)
    }

    pub(super) fn exprs(&mut self, from: u64, k: u64) -> Vec<E> {
        self.many(from, k, |g| g.free())
    }

    pub fn block(&mut self) -> Block<'static> {
        let attrs = if self.yes(1, 12) { vec![self.attr(true)] } else { vec![] };
        let n = if self.fuel <= 0 { self.n(2) } else { self.n(4) };
        let mut stmts = Vec::new();
        for i in 0..n {
            let last = i + 1 == n;
            let attrs = self.attrs(12);
            match self.n(8) {
                0 | 1 => {
                    let pat = self.pat(false);
                    let ty = self.maybe(1, 3, |g| g.ty(true));
                    let init = self.maybe(4, 5, |g| {
                        let e = g.free();
                        let bad = ends_brace(&e) || ends_closure(&e) || matches!(e, Expr::Chain(2 | 3, ..));
                        let b = if bad { None } else { g.maybe(1, 3, |g| g.block()) };
                        (e, b)
                    });
                    stmts.push(Stmt::Let { attrs, pat, ty, init });
                }
                2 if self.fuel > 0 => {
                    let mut i = self.item();
                    if matches!(i.kind, ItemKind::Call(_)) {
                        i.kind = ItemKind::Struct(Word { raw: false, text: "S" }, Generics::default(), vec![], Fields::Unit);
                    }
                    stmts.push(Stmt::Item(Box::new(i)));
                }
                _ => {
                    let e = self.expr(Place::STMT);
                    let need = !last && !block_like(&e) && !braced_call(&e);
                    let semi = need || self.yes(1, 2);
                    stmts.push(Stmt::Expr { attrs, expr: e, semi });
                }
            }
        }
        Block { attrs, stmts }
    }

    pub(super) fn condition(&mut self) -> Condition<'static> {
        if self.yes(1, 3) {
            let n = 2 + self.n(2);
            let k = self.n(n);
            let mut links = Vec::new();
            for i in 0..n {
                let p = Place { level: 4, no_struct: true, op_after: i + 1 < n, ..Place::FREE };
                links.push(if i == k || self.yes(1, 3) {
                    let q = self.pat(true);
                    Link::Let(q, self.expr(p))
                } else {
                    Link::Expr(self.expr(p))
                });
            }
            return Condition { links };
        }
        let p = Place { no_struct: true, ..Place::FREE };
        Condition {
            links: vec![if self.yes(1, 4) {
                let q = self.pat(true);
                Link::Let(q, self.expr(Place { level: 4, ..p }))
            } else {
                Link::Expr(self.expr(p))
            }],
        }
    }

    pub(super) fn label(&mut self) -> Option<&'static str> {
        self.maybe(1, 4, |g| g.life())
    }

    /// An expression for the place; where the tree may not stand there it is mostly put in parentheses.
    pub fn expr(&mut self, p: Place) -> E {
        let e = self.raw_expr(p);
        if !stands(&e, p) && self.yes(24, 25) {
            return Expr::Paren(Box::new(e));
        }
        e
    }

    pub(super) fn at(&mut self, p: Place, level: u8, start: Start, op_after: bool, lt_after: bool) -> E {
        self.expr(Place { level, no_struct: p.no_struct, start, op_after, lt_after })
    }

    pub(super) fn raw_expr(&mut self, p: Place) -> E {
        let part = if p.start == Start::No { Start::No } else { Start::Part };
        if self.low() {
            return match self.n(6) {
                0 => Expr::Lit(self.lit()),
                1 => Expr::Block(None, Block { attrs: vec![], stmts: vec![] }),
                2 => Expr::Return(None),
                3 => Expr::Struct(
                    Path { qself: None, global: false, segments: vec![Segment { word: self.word(), args: Args::None }] },
                    vec![],
                    None,
                ),
                _ => Expr::Path(Path {
                    qself: None,
                    global: false,
                    segments: vec![Segment { word: self.word(), args: Args::None }],
                }),
            };
        }
        match self.n(46) {
            0 | 1 => Expr::Lit(self.lit()),
            2 | 3 => Expr::Path(self.path(Style::Code)),
            4 => Expr::Underscore,
            5 => Expr::Call(self.call()),
            6 => Expr::Paren(Box::new(self.free())),
            7 => Expr::Continue(self.label()),
            8 => Expr::Tuple(self.exprs(0, 2)),
            9 => Expr::Array(self.exprs(0, 2)),
            10 => Expr::Repeat(Box::new(self.free()), self.soup(3)),
            11 | 12 => {
                let path = self.path(Style::Code);
                let f = self.many(0, 2, |g| {
                    let attrs = g.attrs(8);
                    match g.n(3) {
                        0 => FieldInit { attrs, key: Key::Name(g.name()), value: None },
                        1 => FieldInit { attrs, key: Key::Int(tok(Kind::Int, "0")), value: Some(g.free()) },
                        _ => FieldInit { attrs, key: Key::Name(g.name()), value: Some(g.free()) },
                    }
                });
                let base = self.maybe(1, 3, |g| g.maybe(3, 4, |g| Box::new(g.free())));
                Expr::Struct(path, f, base)
            }
            13 => {
                let l = self.label();
                Expr::Block(l, self.block())
            }
            14 => Expr::Unsafe(self.block()),
            15 => Expr::ConstBlock(self.block()),
            16 => {
                let m = self.yes(1, 2);
                Expr::Async(m, self.block())
            }
            17 | 18 => {
                let parts = self.many(1, 1, |g| {
                    let c = g.condition();
                    (c, g.block())
                });
                let o = self.maybe(1, 2, |g| g.block());
                Expr::If(parts, o)
            }
            19 | 20 => {
                let x = Box::new(self.expr(Place { no_struct: true, ..Place::FREE }));
                let attrs = if self.yes(1, 10) { vec![self.attr(true)] } else { vec![] };
                let arms = self.many(0, 3, |g| {
                    let attrs = g.attrs(10);
                    let pat = g.pat(true);
                    let guard = g.maybe(1, 4, |g| g.free());
                    let mut body = g.expr(Place::STMT);
                    while matches!(&body, Expr::Block(None, b) if is_bare(b)) {
                        body = match body {
                            Expr::Block(_, b) => unbare(b),
                            b => b,
                        };
                    }
                    Arm { attrs, pat, guard, body, braces: Aside(0) }
                });
                Expr::Match(x, attrs, arms)
            }
            21 => {
                let l = self.label();
                Expr::Loop(l, self.block())
            }
            22 => {
                let l = self.label();
                let c = self.condition();
                Expr::While(l, c, self.block())
            }
            23 => {
                let l = self.label();
                let pt = self.pat(true);
                let x = Box::new(self.expr(Place { no_struct: true, ..Place::FREE }));
                Expr::For(l, pt, x, self.block())
            }
            24..=29 => {
                let l = 2 + self.n(9) as u8;
                let n = if l == 4 { 1 } else { 1 + self.n(2) };
                let ops: Vec<Op> = (0..n).map(|_| self.op(l)).collect();
                let lt = |o: &Op| matches!(o, Op::Less | Op::Shl);
                let first = self.at(p, if l == 4 { 5 } else { l }, part, true, lt(&ops[0]));
                let first = if matches!(&first, Expr::Chain(m, ..) if *m == l) { Expr::Paren(Box::new(first)) } else { first };
                let rest = (0..ops.len())
                    .map(|i| {
                        let e = if i + 1 == ops.len() {
                            self.at(p, l + 1, Start::No, p.op_after, p.lt_after)
                        } else {
                            self.at(p, l + 1, Start::No, true, lt(&ops[i + 1]))
                        };
                        (ops[i], e)
                    })
                    .collect();
                Expr::Chain(l, Box::new(first), rest)
            }
            30 | 31 => {
                let x = self.at(p, 12, part, true, false);
                Expr::Cast(Box::new(x), self.many(1, 1, |g| g.ty(false)))
            }
            32 | 33 => {
                let ops = self.many(1, 2, |g| {
                    *g.r.pick(&[
                        Prefix::Neg,
                        Prefix::Deref,
                        Prefix::Bang,
                        Prefix::Amp,
                        Prefix::AmpMut,
                        Prefix::RawConst,
                        Prefix::RawMut,
                    ])
                });
                let x = self.at(p, 12, Start::No, p.op_after, p.lt_after);
                let x = if matches!(x, Expr::Unary(..)) { Expr::Paren(Box::new(x)) } else { x };
                Expr::Unary(ops, Box::new(x))
            }
            34 | 35 => {
                let a = self.maybe(2, 3, |g| Box::new(g.at(p, 2, part, true, false)));
                let eq = self.yes(1, 3);
                let b =
                    if eq || self.yes(1, 2) { Some(Box::new(self.at(p, 2, Start::No, p.op_after, p.lt_after))) } else { None };
                let b = b.map(|b| if p.no_struct && begins_brace(&b) { Box::new(Expr::Paren(b)) } else { b });
                Expr::Range(a, eq, b)
            }
            36 => {
                let n = 1 + self.n(2);
                let ts = (0..n)
                    .map(|i| {
                        let x = self.at(p, 1, if i == 0 { part } else { Start::No }, true, false);
                        (x, self.op(0))
                    })
                    .collect();
                Expr::Assign(ts, Box::new(self.at(p, 1, Start::No, p.op_after, p.lt_after)))
            }
            37..=40 => {
                let mut steps: Vec<Step<'static>> = Vec::new();
                for _ in 0..1 + self.n(3) {
                    let s = match self.n(8) {
                        0 => Step::Field(self.name()),
                        1 => Step::Index(tok(Kind::Int, *self.r.pick(&["0", "1", "00"]))),
                        2..=4 => {
                            let w = self.name();
                            let f = self.maybe(1, 4, |g| g.many(0, 2, |g| g.arg()));
                            Step::Method(w, f, self.exprs(0, 2))
                        }
                        5 => {
                            if matches!(steps.last(), Some(Step::Field(_))) {
                                continue;
                            }
                            Step::Call(self.exprs(0, 2))
                        }
                        6 => Step::At(self.free()),
                        _ => {
                            if self.yes(1, 2) {
                                Step::Try
                            } else {
                                Step::Await
                            }
                        }
                    };
                    steps.push(s);
                }
                if steps.is_empty() {
                    steps.push(Step::Try);
                }
                let dot = !matches!(steps[0], Step::Call(_) | Step::At(_));
                let mut x = self.at(p, 14, if dot { Start::No } else { part }, true, false);
                if is_plain_number(&x) && matches!(steps[0], Step::Index(_)) {
                    x = Expr::Paren(Box::new(x));
                }
                Expr::Postfix(Box::new(x), steps)
            }
            41 | 42 => {
                let params = self.many(0, 2, |g| ClosureParam {
                    attrs: g.attrs(10),
                    pat: g.pat(false),
                    ty: g.maybe(1, 3, |g| g.ty(true)),
                });
                let body = if self.yes(1, 5) {
                    let t = self.ty(false);
                    ClosureBody::Ret(t, self.block())
                } else {
                    let q = Place { no_struct: p.no_struct, ..Place::FREE };
                    let mut e = self.expr(q);
                    loop {
                        match e {
                            Expr::Block(None, b)
                                if is_bare(&b) && matches!(&b.stmts[0], Stmt::Expr { expr, .. } if stands(expr, q)) =>
                            {
                                e = unbare(b)
                            }
                            other => {
                                e = other;
                                break;
                            }
                        }
                    }
                    ClosureBody::Expr(e, Aside(0))
                };
                let is_async = self.yes(1, 4);
                Expr::Closure(Box::new(Closure { is_async, is_move: self.yes(1, 3), params, body }))
            }
            43 | 44 => {
                let x = self.maybe(2, 3, |g| g.at(p, 0, Start::No, false, false));
                let x = x.map(|x| if p.no_struct && begins_brace(&x) { Expr::Paren(Box::new(x)) } else { x });
                Expr::Return(x.map(Box::new))
            }
            _ => {
                let l = self.label();
                let x = self.maybe(1, 2, |g| g.at(p, 0, Start::No, false, false));
                let x = x.map(|x| {
                    if (p.no_struct && begins_brace(&x)) || (l.is_none() && begins_lifetime(&x)) {
                        Expr::Paren(Box::new(x))
                    } else {
                        x
                    }
                });
                Expr::Break(l, x.map(Box::new))
            }
        }
    }
}

/// The last token of the expression is `}`.
fn ends_brace(e: &E) -> bool {
    match e {
        Expr::Struct(..) | Expr::Async(..) => true,
        Expr::Call(c) => is_braced(c),
        Expr::Chain(_, _, r) => ends_brace(&r[r.len() - 1].1),
        Expr::Unary(_, e) | Expr::Assign(_, e) | Expr::Range(_, _, Some(e)) | Expr::Return(Some(e)) | Expr::Break(_, Some(e)) => {
            ends_brace(e)
        }
        Expr::Cast(_, t) => ty_ends_brace(&t[t.len() - 1]),
        e => block_like(e),
    }
}

fn ty_ends_brace(t: &Ty<'_>) -> bool {
    match t {
        Ty::Call(c) => is_braced(c),
        Ty::Ptr(_, t) | Ty::Ref(_, _, t) => ty_ends_brace(t),
        Ty::Func(f) => f.ret.as_ref().map_or(false, ty_ends_brace),
        Ty::Path(p) => matches!(&p.segments[p.segments.len() - 1].args, Args::Round(_, Some(t)) if ty_ends_brace(t)),
        Ty::Impl(b) | Ty::Dyn(b) => {
            matches!(&b[b.len() - 1], Bound::Trait { paren: false, path, .. } if matches!(&path.segments[path.segments.len() - 1].args, Args::Round(_, Some(t)) if ty_ends_brace(t)))
        }
        _ => false,
    }
}
