//! Which expressions may stand where, asked of the finished tree: docs/GRAMMAR.md, "Expressions".

use crate::tree::*;

#[derive(Clone, Copy, PartialEq, Eq, Debug)]
pub enum Start {
    No,
    Whole,
    Part,
}

#[derive(Clone, Copy, PartialEq, Eq, Debug)]
pub struct Place {
    pub level: u8,
    pub no_struct: bool,
    pub start: Start,
    pub op_after: bool,
    pub lt_after: bool,
}

impl Place {
    pub const FREE: Place = Place { level: 0, no_struct: false, start: Start::No, op_after: false, lt_after: false };
    pub const STMT: Place = Place { start: Start::Whole, ..Place::FREE };
}

/// A path that arguments could follow; the same of a type.
fn open_path(p: &Path<'_>) -> bool {
    match &p.segments[p.segments.len() - 1].args {
        Args::None => true,
        Args::Angle(_) => false,
        Args::Round(_, Some(t)) => open_end(t),
        Args::Round(_, None) => false,
    }
}

pub fn open_end(t: &Ty<'_>) -> bool {
    match t {
        Ty::Path(p) => open_path(p),
        Ty::Ref(_, _, t) | Ty::Ptr(_, t) => open_end(t),
        Ty::Func(f) => f.ret.as_ref().map_or(false, open_end),
        Ty::Impl(b) | Ty::Dyn(b) => match &b[b.len() - 1] {
            Bound::Trait { paren: false, path, .. } => open_path(path),
            _ => false,
        },
        _ => false,
    }
}

fn level(e: &Expr<'_>, op_after: bool) -> Option<u8> {
    Some(match e {
        Expr::Assign(..) => 0,
        Expr::Range(..) => 1,
        Expr::Chain(l, ..) => *l,
        Expr::Cast(..) => 11,
        Expr::Unary(..) => 12,
        Expr::Postfix(..) => 13,
        Expr::Return(_) | Expr::Break(..) | Expr::Closure(_) => return if op_after { None } else { Some(12) },
        _ => 14,
    })
}

/// What the place asks of the root alone.
pub fn may(e: &Expr<'_>, p: Place) -> bool {
    match level(e, p.op_after) {
        Some(l) if l >= p.level => {}
        _ => return false,
    }
    match e {
        Expr::Range(_, _, None) if p.op_after => return false,
        Expr::Struct(..) if p.no_struct => return false,
        Expr::Cast(_, tys) if p.lt_after && open_end(&tys[tys.len() - 1]) => return false,
        _ => {}
    }
    !(p.start == Start::Part && (block_like(e) || braced_call(e)))
}

fn part(s: Start) -> Start {
    if s == Start::No {
        Start::No
    } else {
        Start::Part
    }
}

/// The children that aren't inside delimiters, each with its place.
fn open_children<'e, 'a>(e: &'e Expr<'a>, p: Place, f: &mut dyn FnMut(&'e Expr<'a>, Place) -> bool) -> bool {
    let at = |level, start, op_after, lt_after| Place { level, no_struct: p.no_struct, start, op_after, lt_after };
    match e {
        Expr::Chain(l, first, rest) => {
            let lt = |i: usize| i < rest.len() && matches!(rest[i].0, Op::Less | Op::Shl);
            if !f(first, at(if *l == 4 { 5 } else { *l }, part(p.start), true, lt(0))) {
                return false;
            }
            for (i, (_, x)) in rest.iter().enumerate() {
                let last = i + 1 == rest.len();
                let q = if last { at(l + 1, Start::No, p.op_after, p.lt_after) } else { at(l + 1, Start::No, true, lt(i + 1)) };
                if !f(x, q) {
                    return false;
                }
            }
            true
        }
        Expr::Cast(x, _) => f(x, at(12, part(p.start), true, false)),
        Expr::Unary(_, x) => f(x, at(12, Start::No, p.op_after, p.lt_after)),
        Expr::Postfix(x, steps) => {
            let dot = !matches!(steps[0], Step::Call(_) | Step::At(_));
            f(x, at(14, if dot { Start::No } else { part(p.start) }, true, false))
        }
        Expr::Range(a, _, b) => {
            a.as_ref().map_or(true, |x| f(x, at(2, part(p.start), true, false)))
                && b.as_ref().map_or(true, |x| f(x, at(2, Start::No, p.op_after, p.lt_after)))
        }
        Expr::Assign(ts, v) => {
            for (i, (x, _)) in ts.iter().enumerate() {
                if !f(x, at(1, if i == 0 { part(p.start) } else { Start::No }, true, false)) {
                    return false;
                }
            }
            f(v, at(1, Start::No, p.op_after, p.lt_after))
        }
        Expr::Return(Some(x)) | Expr::Break(_, Some(x)) => f(x, at(0, Start::No, false, false)),
        Expr::Closure(c) => match &c.body {
            ClosureBody::Expr(x, _) => f(x, at(0, Start::No, false, false)),
            _ => true,
        },
        _ => true,
    }
}

/// The normal form of closures along the open edges: no body is a block of one expression that may stand in the body's place itself.
/// The body's place differs from FREE in `no_struct` alone. In finished trees a bare block stays only where no struct literal may
/// stand, and what it holds has none such in turn, so a walk looks into one bare block at most: no more than depth times size.
fn normal_in(e: &Expr<'_>, no_struct: bool) -> bool {
    let p = Place { no_struct, ..Place::FREE };
    if let Expr::Closure(c) = e {
        if let ClosureBody::Expr(Expr::Block(None, b), _) = &c.body {
            if let [Stmt::Expr { expr, .. }] = &b.stmts[..] {
                if is_bare(b) {
                    return !written_in(expr, p);
                }
            }
        }
    }
    open_children(e, p, &mut |x, q| normal_in(x, q.no_struct))
}

/// May stand in the place, with the closures in it in their normal form there; what is inside its delimiters isn't looked at.
pub fn written_in(e: &Expr<'_>, p: Place) -> bool {
    stands(e, p) && normal_in(e, p.no_struct)
}

/// A closure's body may stand within braces that aren't in the tree.
pub fn may_be_braced(e: &Expr<'_>) -> bool {
    !matches!(e, Expr::Call(_)) && written_in(e, Place::STMT)
}

/// Side conditions of the root beside `may`.
fn side(e: &Expr<'_>, p: Place) -> bool {
    match e {
        Expr::Chain(l, f, r) => !matches!(&**f, Expr::Chain(m, ..) if m == l) && (*l != 4 || r.len() == 1),
        Expr::Unary(_, x) => !matches!(**x, Expr::Unary(..)),
        Expr::Return(Some(x)) => !(p.no_struct && begins_brace(x)),
        Expr::Break(l, Some(x)) => !(p.no_struct && begins_brace(x)) && !(l.is_none() && begins_lifetime(x)),
        Expr::Range(_, _, Some(x)) => !(p.no_struct && begins_brace(x)),
        _ => true,
    }
}

/// The expression may stand in the place; what is inside its delimiters isn't looked at.
pub fn stands(e: &Expr<'_>, p: Place) -> bool {
    may(e, p) && side(e, p) && open_children(e, p, &mut |x, q| stands(x, q))
}

// ---- the walk over everything ----

pub fn item(i: &Item<'_>) -> bool {
    match &i.kind {
        ItemKind::Module(_, Some((_, l))) => l.iter().all(item),
        ItemKind::Trait { items, .. } | ItemKind::Impl { items, .. } | ItemKind::Foreign { items, .. } => items.iter().all(item),
        ItemKind::Function(_, _, Some(b)) => block(b),
        ItemKind::Const(_, _, Some(e)) | ItemKind::Static(_, _, _, Some(e)) => expr(e, Place::FREE),
        _ => true,
    }
}

fn block(b: &Block<'_>) -> bool {
    b.stmts.iter().all(|s| match s {
        Stmt::Let { init, .. } => init.as_ref().map_or(true, |(e, b)| expr(e, Place::FREE) && b.as_ref().map_or(true, block)),
        Stmt::Item(i) => item(i),
        Stmt::Expr { expr: e, .. } => expr(e, Place::STMT),
    })
}

fn condition(c: &Condition<'_>) -> bool {
    if let [Link::Expr(e)] = &c.links[..] {
        return expr(e, Place { no_struct: true, ..Place::FREE });
    }
    c.links.iter().enumerate().all(|(i, l)| {
        let p = Place { level: 4, no_struct: true, op_after: i + 1 < c.links.len(), ..Place::FREE };
        match l {
            Link::Expr(e) | Link::Let(_, e) => expr(e, p),
        }
    })
}

/// The whole expression with all that it holds.
pub fn expr(e: &Expr<'_>, p: Place) -> bool {
    if !may(e, p) || !side(e, p) {
        return false;
    }
    let free = |e: &Expr<'_>| expr(e, Place::FREE);
    let inside = match e {
        Expr::Paren(x) | Expr::Repeat(x, _) => free(x),
        Expr::Tuple(l) | Expr::Array(l) => l.iter().all(free),
        Expr::Struct(_, fs, base) => {
            fs.iter().all(|f| f.value.as_ref().map_or(true, free))
                && base.as_ref().map_or(true, |b| b.as_ref().map_or(true, |b| free(b)))
        }
        Expr::Block(_, b) | Expr::Unsafe(b) | Expr::ConstBlock(b) | Expr::Async(_, b) | Expr::Loop(_, b) => block(b),
        Expr::If(parts, other) => parts.iter().all(|(c, b)| condition(c) && block(b)) && other.as_ref().map_or(true, block),
        Expr::Match(x, _, arms) => {
            expr(x, Place { no_struct: true, ..Place::FREE })
                && arms.iter().all(|a| {
                    a.guard.as_ref().map_or(true, free)
                        && expr(&a.body, Place::STMT)
                        && !matches!(&a.body, Expr::Block(None, b) if is_bare(b))
                })
        }
        Expr::While(_, c, b) => condition(c) && block(b),
        Expr::For(_, _, x, b) => expr(x, Place { no_struct: true, ..Place::FREE }) && block(b),
        Expr::Postfix(_, steps) => steps.iter().all(|s| match s {
            Step::Method(_, _, l) | Step::Call(l) => l.iter().all(free),
            Step::At(x) => free(x),
            _ => true,
        }),
        Expr::Closure(c) => match &c.body {
            ClosureBody::Ret(_, b) => block(b),
            _ => true,
        },
        _ => true,
    };
    inside && open_children(e, p, &mut |x, q| expr(x, q))
}
