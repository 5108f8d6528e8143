//! Made by scripts/rust.sh from crates/lay_ops_ends/src/brace_ends.rt, which is proved: change that.
//!
//! Whether an `else` may follow a value: the value ends neither in a `}` nor in a closure, which is
//! found along its right edge.
use crate::generated::lay_code::{Args, Block, Bound, Branch, Expr, Path, Ty};
use crate::generated::lay_ops::level;
use crate::generated::lay_token::{Delim, Kind};
/// What a type ends in.
#[derive(Clone, Copy,)]
enum TypeEdge<'a> {
    /// A token of its own; the flag says that it is a `}`.
    Token(bool),
    /// A type.
    In(&'a Ty),
}
/// What an expression ends in.
#[derive(Clone, Copy,)]
enum Edge<'a> {
    /// A token of its own; the flag says that it is a `}`.
    Token(bool),
    /// A type.
    Ty(&'a Ty),
    /// An expression.
    In(&'a Expr),
}
/// What an expression ends in, as far as it may be a closure.
#[derive(Clone, Copy,)]
enum ClosureEdge<'a> {
    /// What is no closure.
    Shut,
    /// A closure.
    Closure,
    /// An operand.
    In(&'a Expr),
}
/// Whether an `else` may follow the value.
pub fn may_precede_else(expr: &Expr) -> bool {
    let level = level(expr);
    level != 2 && level != 3 && !ends_in_closure(expr) && !ends_in_brace(expr)
}
/// Whether an expression ends in a closure.
fn ends_in_closure(expr: &Expr) -> bool {
    let mut last = expr;
    loop {
        match closure_edge(last) {
            ClosureEdge::Shut => return false,
            ClosureEdge::Closure => return true,
            ClosureEdge::In(operand) => last = operand,
        }
    }
}
/// Whether an expression ends in a closure by its root, or in which operand it ends.
fn closure_edge(expr: &Expr) -> ClosureEdge<'_> {
    match expr {
        Expr::Chain { rest, .. } => {
            match rest.as_slice().last() {
                Some((_, operand)) => ClosureEdge::In(operand.get()),
                None => ClosureEdge::Shut,
            }
        }
        Expr::Unary { operand, .. } => ClosureEdge::In(operand.get()),
        Expr::Assign { value, .. } => ClosureEdge::In(value.get()),
        Expr::Range { end: Some(end), .. } => ClosureEdge::In(end.get()),
        Expr::Return { operand: Some(operand) } => ClosureEdge::In(operand.get()),
        Expr::Break { operand: Some(operand), .. } => ClosureEdge::In(operand.get()),
        Expr::Closure { .. } | Expr::TypedClosure { .. } => ClosureEdge::Closure,
        _ => ClosureEdge::Shut,
    }
}
/// Whether an expression ends in a `}`.
fn ends_in_brace(expr: &Expr) -> bool {
    let mut last = expr;
    loop {
        match last_part(last) {
            Edge::Token(brace) => return brace,
            Edge::Ty(ty) => return type_ends_in_brace(ty),
            Edge::In(operand) => last = operand,
        }
    }
}
/// What an expression ends in.
fn last_part(expr: &Expr) -> Edge<'_> {
    match expr {
        Expr::Lit { literal } => Edge::Token(is_brace_kind(literal.kind)),
        Expr::Path { path } => type_edge_of(code_edge(path)),
        Expr::Call { call } => Edge::Token(is_brace(call.tokens.delim)),
        Expr::Chain { rest, first } => {
            match rest.as_slice().last() {
                Some((_, operand)) => Edge::In(operand.get()),
                None => Edge::In(first.get()),
            }
        }
        Expr::Cast { types, operand } => {
            match types.as_slice().last() {
                Some(ty) => Edge::Ty(ty),
                None => Edge::In(operand.get()),
            }
        }
        Expr::Unary { operand, .. } => Edge::In(operand.get()),
        Expr::Range { end: Some(end), .. } => Edge::In(end.get()),
        Expr::Assign { value, .. } => Edge::In(value.get()),
        Expr::Return { operand: Some(operand) } => Edge::In(operand.get()),
        Expr::Break { operand: Some(operand), .. } => Edge::In(operand.get()),
        Expr::Closure { body, .. } => Edge::In(body.get()),
        Expr::Postfix { base, steps } => {
            if steps.as_slice().is_empty() { Edge::In(base.get()) } else {
                Edge::Token(false)
            }
        }
        Expr::If { branches, otherwise } => {
            Edge::Token(has_block(branches.as_slice(), otherwise))
        }
        Expr::Struct { .. } | Expr::Block { .. } | Expr::Unsafe { .. }
        | Expr::ConstBlock { .. } | Expr::Async { .. } | Expr::Match { .. }
        | Expr::Loop { .. } | Expr::While { .. } | Expr::For { .. }
        | Expr::TypedClosure { .. } => Edge::Token(true),
        _ => Edge::Token(false),
    }
}
/// Whether the list of branches isn't empty or there is an `else`.
fn has_block(branches: &[Branch], otherwise: &Option<Block>) -> bool {
    match branches {
        [] => otherwise.is_some(),
        _ => true,
    }
}
/// What an expression ends in that ends as this type does.
fn type_edge_of(edge: TypeEdge<'_>) -> Edge<'_> {
    match edge {
        TypeEdge::Token(brace) => Edge::Token(brace),
        TypeEdge::In(ty) => Edge::Ty(ty),
    }
}
/// Whether the delimiter is a brace.
fn is_brace(delim: Delim) -> bool {
    matches!(delim, Delim::Brace)
}
/// Whether a token of this kind is a `}`.
fn is_brace_kind(kind: Kind) -> bool {
    matches!(kind, Kind::Closer(Delim::Brace))
}
/// Whether a type ends in a `}`.
fn type_ends_in_brace(ty: &Ty) -> bool {
    let mut last = ty;
    loop {
        match type_edge(last) {
            TypeEdge::Token(brace) => return brace,
            TypeEdge::In(inner) => last = inner,
        }
    }
}
/// What a type ends in.
fn type_edge(ty: &Ty) -> TypeEdge<'_> {
    match ty {
        Ty::Path { path } => path_edge(path),
        Ty::Call { call } => TypeEdge::Token(is_brace(call.tokens.delim)),
        Ty::Ptr { inner, .. } | Ty::Ref { inner, .. } => TypeEdge::In(inner.get()),
        Ty::Func { output: Some(output), .. } => TypeEdge::In(output.get()),
        Ty::Bounds { bounds, .. } => {
            match bounds.as_slice().last() {
                Some(bound) => bound_edge(bound),
                None => TypeEdge::Token(false),
            }
        }
        _ => TypeEdge::Token(false),
    }
}
/// What a bound ends in.
fn bound_edge(bound: &Bound) -> TypeEdge<'_> {
    match bound {
        Bound::Outlives { .. } | Bound::Captures { .. } => TypeEdge::Token(false),
        Bound::Meets { parens, path, .. } => {
            if *parens { TypeEdge::Token(false) } else { path_edge(path) }
        }
    }
}
/// What a path of a type ends in.
fn path_edge(path: &Path) -> TypeEdge<'_> {
    match path.segments.as_slice().last() {
        Some((_, args)) => args_edge(args),
        None => TypeEdge::Token(false),
    }
}
/// What a path in an expression ends in.
fn code_edge(path: &Path) -> TypeEdge<'_> {
    match path.segments.as_slice().last() {
        Some((_, args)) => args_edge(args),
        None => TypeEdge::Token(false),
    }
}
/// What generic arguments end in.
fn args_edge(args: &Args) -> TypeEdge<'_> {
    match args {
        Args::Round { output: Some(output), .. } => TypeEdge::In(output.get()),
        _ => TypeEdge::Token(false),
    }
}
