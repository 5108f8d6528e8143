//! The least depth at which a node is spelled, with the braces that were spelled.

use crate::tree::*;

/// Counts, node by node.
pub struct Depth;

fn top<T>(l: &[T], f: impl FnMut(&T) -> u32) -> u32 {
    l.iter().map(f).max().unwrap_or(0)
}

fn opt<T>(o: &Option<T>, f: impl FnMut(&T) -> u32) -> u32 {
    o.as_ref().map_or(0, f)
}

impl Depth {
    // `in_*`: the greatest need among what is nested in a node that isn't counted itself.
    fn in_path(&self, p: &Path<'_>) -> u32 {
        let q = p.qself.as_ref().map_or(0, |q| self.ty(&q.ty).max(opt(&q.of, |p| 1 + self.in_path(p))));
        q.max(top(&p.segments, |s| self.in_args(&s.args)))
    }

    fn in_args(&self, a: &Args<'_>) -> u32 {
        match a {
            Args::None => 0,
            Args::Angle(l) => top(l, |a| self.arg(a)),
            Args::Round(l, r) => top(l, |t| self.ty(t)).max(r.as_ref().map_or(0, |t| self.ty(t))),
        }
    }

    fn arg(&self, a: &Arg<'_>) -> u32 {
        match a {
            Arg::Lifetime(_) | Arg::Const(_) => 0,
            Arg::Type(t) => self.ty(t),
            Arg::EqualType(_, a, t) => 1 + self.in_args(a).max(self.ty(t)),
            Arg::EqualConst(_, a, _) => 1 + self.in_args(a),
            Arg::Limit(_, a, b) => 1 + self.in_args(a).max(self.in_bounds(b)),
        }
    }

    fn in_bounds(&self, b: &Bounds<'_>) -> u32 {
        top(b, |b| match b {
            Bound::Trait { path, .. } => self.in_path(path),
            _ => 0,
        })
    }

    pub fn ty(&self, t: &Ty<'_>) -> u32 {
        1 + match t {
            Ty::Path(p) => self.in_path(p),
            Ty::Call(_) | Ty::Never | Ty::Infer => 0,
            Ty::Paren(t) | Ty::Ptr(_, t) | Ty::Ref(_, _, t) | Ty::Slice(t) | Ty::Array(t, _) => self.ty(t),
            Ty::Tuple(l) => top(l, |t| self.ty(t)),
            Ty::Func(f) => top(&f.params, |p| self.ty(&p.ty)).max(opt(&f.ret, |t| self.ty(t))),
            Ty::Impl(b) | Ty::Dyn(b) => self.in_bounds(b),
        }
    }

    fn in_generics(&self, g: &Generics<'_>) -> u32 {
        top(&g.params, |p| match p {
            Param::Life(_) => 0,
            Param::Type { bounds, default, .. } => self.in_bounds(bounds).max(opt(default, |t| self.ty(t))),
            Param::Const { ty, .. } => self.ty(ty),
        })
    }

    fn in_wheres(&self, w: &Wheres<'_>) -> u32 {
        top(w, |p| match p {
            Pred::Life(..) => 0,
            Pred::Type(_, t, b) => self.ty(t).max(self.in_bounds(b)),
        })
    }

    pub fn pat(&self, p: &Pat<'_>) -> u32 {
        1 + match p {
            Pat::Or(l) | Pat::Tuple(l) | Pat::Slice(l) => top(l, |p| self.pat(p)),
            Pat::Value(_) | Pat::Wild | Pat::Rest | Pat::Call(_) => 0,
            Pat::Path(p) => self.in_path(p),
            Pat::Bind { sub, .. } => sub.as_ref().map_or(0, |p| self.pat(p)),
            Pat::Span(a, _, b) => self.in_end(a).max(self.in_end(b)),
            Pat::Ref(_, p) | Pat::Paren(p) => self.pat(p),
            Pat::Struct(p, f, _) => self.in_path(p).max(top(f, |f| self.pat(&f.pat))),
            Pat::TupleStruct(p, l) => self.in_path(p).max(top(l, |p| self.pat(p))),
        }
    }

    fn in_end(&self, e: &Option<SpanEnd<'_>>) -> u32 {
        match e {
            Some(SpanEnd::Path(p)) => self.in_path(p),
            _ => 0,
        }
    }

    fn use_tree(&self, u: &UseTree<'_>) -> u32 {
        1 + match &u.kind {
            UseKind::List(l) => top(l, |u| self.use_tree(u)),
            _ => 0,
        }
    }

    fn in_head(&self, h: &FnHead<'_>) -> u32 {
        let ps = top(&h.params, |p| match &p.kind {
            FnParamKind::Plain(p, t) => self.pat(p).max(self.ty(t)),
            FnParamKind::OwnSelf(_, Some(t)) => self.ty(t),
            FnParamKind::PatDots(p) => self.pat(p),
            _ => 0,
        });
        self.in_generics(&h.generics).max(ps).max(opt(&h.ret, |t| self.ty(t)))
    }

    pub fn item(&self, i: &Item<'_>) -> u32 {
        1 + match &i.kind {
            ItemKind::ExternCrate(..) | ItemKind::Module(_, None) | ItemKind::MacroRules(..) | ItemKind::Call(_) => 0,
            ItemKind::Import(u) => self.use_tree(u),
            ItemKind::Module(_, Some((_, l))) | ItemKind::Foreign { items: l, .. } => top(l, |i| self.item(i)),
            ItemKind::Function(h, w, b) => self.in_head(h).max(self.in_wheres(w)).max(opt(b, |b| self.in_block(b))),
            ItemKind::Alias { generics, bounds, ty, wheres, .. } => {
                self.in_generics(generics).max(self.in_bounds(bounds)).max(opt(ty, |t| self.ty(t))).max(self.in_wheres(wheres))
            }
            ItemKind::Struct(_, g, w, f) => self.in_generics(g).max(self.in_wheres(w)).max(self.in_fields(f)),
            ItemKind::Union(_, g, w, f) => self.in_generics(g).max(self.in_wheres(w)).max(top(f, |f| self.ty(&f.ty))),
            ItemKind::Enum(_, g, w, v) => self.in_generics(g).max(self.in_wheres(w)).max(top(v, |v| self.in_fields(&v.fields))),
            ItemKind::Const(_, t, e) => self.ty(t).max(opt(e, |e| self.expr(e))),
            ItemKind::Static(_, _, t, e) => self.ty(t).max(opt(e, |e| self.expr(e))),
            ItemKind::Trait { generics, bounds, wheres, items, .. } => self
                .in_generics(generics)
                .max(self.in_bounds(bounds))
                .max(self.in_wheres(wheres))
                .max(top(items, |i| self.item(i))),
            ItemKind::Impl { generics, of, ty, wheres, items, .. } => self
                .in_generics(generics)
                .max(opt(of, |(_, p)| self.in_path(p)))
                .max(self.ty(ty))
                .max(self.in_wheres(wheres))
                .max(top(items, |i| self.item(i))),
        }
    }

    fn in_fields(&self, f: &Fields<'_>) -> u32 {
        match f {
            Fields::Unit => 0,
            Fields::Tuple(l) => top(l, |f| self.ty(&f.ty)),
            Fields::Named(l) => top(l, |f| self.ty(&f.ty)),
        }
    }

    fn in_block(&self, b: &Block<'_>) -> u32 {
        top(&b.stmts, |s| match s {
            Stmt::Let { pat, ty, init, .. } => self
                .pat(pat)
                .max(opt(ty, |t| self.ty(t)))
                .max(opt(init, |(e, b)| self.expr(e).max(opt(b, |b| 1 + self.in_block(b))))),
            Stmt::Item(i) => self.item(i),
            Stmt::Expr { expr, .. } => self.expr(expr),
        })
    }

    fn in_condition(&self, c: &Condition<'_>) -> u32 {
        top(&c.links, |l| match l {
            Link::Expr(e) => self.expr(e),
            Link::Let(p, e) => self.pat(p).max(self.expr(e)),
        })
    }

    fn braced(&self, e: &Expr<'_>, n: u32) -> u32 {
        self.expr(e) + n.max(1)
    }

    pub fn expr(&self, e: &Expr<'_>) -> u32 {
        let ex = |e: &Expr<'_>| self.expr(e);
        let bx = |e: &Option<Box<Expr<'_>>>| e.as_ref().map_or(0, |e| self.expr(e));
        1 + match e {
            Expr::Lit(_) | Expr::Underscore | Expr::Call(_) | Expr::Continue(_) => 0,
            Expr::Path(p) => self.in_path(p),
            Expr::Paren(x) | Expr::Repeat(x, _) | Expr::Unary(_, x) => ex(x),
            Expr::Tuple(l) | Expr::Array(l) => top(l, ex),
            Expr::Struct(p, f, b) => self.in_path(p).max(top(f, |f| opt(&f.value, ex))).max(opt(b, bx)),
            Expr::Block(_, b) | Expr::Unsafe(b) | Expr::ConstBlock(b) | Expr::Async(_, b) | Expr::Loop(_, b) => self.in_block(b),
            Expr::If(p, o) => top(p, |(c, b)| self.in_condition(c).max(self.in_block(b))).max(opt(o, |b| self.in_block(b))),
            Expr::Match(x, _, arms) => {
                ex(x).max(top(arms, |a| self.pat(&a.pat).max(opt(&a.guard, ex)).max(self.braced(&a.body, a.braces.0))))
            }
            Expr::While(_, c, b) => self.in_condition(c).max(self.in_block(b)),
            Expr::For(_, p, x, b) => self.pat(p).max(ex(x)).max(self.in_block(b)),
            Expr::Chain(_, f, r) => ex(f).max(top(r, |(_, x)| ex(x))),
            Expr::Cast(x, t) => ex(x).max(top(t, |t| self.ty(t))),
            Expr::Range(a, _, b) => bx(a).max(bx(b)),
            Expr::Assign(t, v) => ex(v).max(top(t, |(x, _)| ex(x))),
            Expr::Postfix(x, s) => ex(x).max(top(s, |s| match s {
                Step::Method(_, f, l) => opt(f, |f| top(f, |a| self.arg(a))).max(top(l, ex)),
                Step::Call(l) => top(l, ex),
                Step::At(x) => ex(x),
                _ => 0,
            })),
            Expr::Closure(c) => {
                let ps = top(&c.params, |p| self.pat(&p.pat).max(opt(&p.ty, |t| self.ty(t))));
                ps.max(match &c.body {
                    ClosureBody::Expr(e, n) => self.braced(e, n.0),
                    ClosureBody::Ret(t, b) => self.ty(t).max(self.in_block(b)),
                })
            }
            Expr::Return(x) | Expr::Break(_, x) => bx(x),
        }
    }
}
