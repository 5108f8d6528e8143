//! Made by scripts/rust.sh from crates/lay_ops/src/expr_ends.rt, which is proved: change that.
//!
//! What an expression ends in, found along its right edge.
use crate::generated::lay_ops::roots::last_lacks_args;
use crate::generated::lay_ops::type_ends::path_lacks_args;
use crate::generated::lay_code::Expr;
/// What an expression ends in.
#[derive(Clone, Copy,)]
enum ExprEnd<'a> {
    /// What any operator may follow.
    Shut,
    /// What would take an operator that follows as a part of its operand, or lacks an operand.
    Open,
    /// A type after which `<` would open generic arguments.
    Typed,
    /// An operand.
    In(&'a Expr),
}
/// Whether what follows may follow the expression; `op` says that it is an operator, `angle` that
/// it is `<` or `<<`.
pub fn may_precede(expr: &Expr, op: bool, angle: bool) -> bool {
    let mut last = expr;
    loop {
        match expr_end(last) {
            ExprEnd::Shut => return true,
            ExprEnd::Open => return !op,
            ExprEnd::Typed => return !angle,
            ExprEnd::In(operand) => last = operand,
        }
    }
}
/// What an expression ends in.
fn expr_end(expr: &Expr) -> ExprEnd<'_> {
    match expr {
        Expr::Chain { rest, .. } => {
            match rest.as_slice().last() {
                Some((_, operand)) => ExprEnd::In(operand.get()),
                None => ExprEnd::Shut,
            }
        }
        Expr::Unary { operand, .. } => ExprEnd::In(operand.get()),
        Expr::Assign { value, .. } => ExprEnd::In(value.get()),
        Expr::Range { end: Some(end), .. } => ExprEnd::In(end.get()),
        Expr::Range { end: None, .. } => ExprEnd::Open,
        Expr::Return { .. } | Expr::Break { .. } | Expr::Closure { .. }
        | Expr::TypedClosure { .. } => ExprEnd::Open,
        Expr::Cast { types, .. } => typed_if(last_lacks_args(types.as_slice())),
        Expr::Path { path } => typed_if(path_lacks_args(path)),
        _ => ExprEnd::Shut,
    }
}
/// The end of an expression in a type; `lacks` says that `<` would open generic arguments there.
fn typed_if(lacks: bool) -> ExprEnd<'static> {
    if lacks { ExprEnd::Typed } else { ExprEnd::Shut }
}
