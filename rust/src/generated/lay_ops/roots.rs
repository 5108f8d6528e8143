//! Made by scripts/rust.sh from crates/lay_ops/src/roots.rt, which is proved: change that.
//!
//! Facts about an expression, decided by its root.
use crate::generated::lay_ops::operators::op_level;
use crate::generated::lay_ops::type_ends::type_lacks_args;
use crate::generated::lay_code::{Boxed, Expr, Op, Ty};
use crate::generated::lay_token::Delim;
/// The precedence level of an expression: 0 for assignments, up to 14 for what has no operator.
pub fn level(expr: &Expr) -> u8 {
    match expr {
        Expr::Assign { .. } => 0,
        Expr::Range { .. } => 1,
        Expr::Chain { rest, .. } => first_level(rest.as_slice()),
        Expr::Cast { .. } => 11,
        Expr::Unary { .. } | Expr::Return { .. } | Expr::Break { .. }
        | Expr::Closure { .. } | Expr::TypedClosure { .. } => 12,
        Expr::Postfix { .. } => 13,
        _ => 14,
    }
}
/// The precedence level of the operators of a chain, given its operands after the first.
pub fn first_level(rest: &[(Op, Boxed<Expr>)]) -> u8 {
    match rest {
        [(op, _), ..] => op_level(*op),
        [] => 0,
    }
}
/// Whether the expression is a `return`, a `break` or a closure.
pub fn is_jump(expr: &Expr) -> bool {
    matches!(
        expr, Expr::Return { .. } | Expr::Break { .. } | Expr::Closure { .. } |
        Expr::TypedClosure { .. }
    )
}
/// Whether the expression is a range without an end.
pub fn is_endless(expr: &Expr) -> bool {
    matches!(expr, Expr::Range { end: None, .. })
}
/// Whether the expression is a cast to a type after which `<` would open generic arguments.
pub fn is_typed_cast(expr: &Expr) -> bool {
    match expr {
        Expr::Cast { types, .. } => last_lacks_args(types.as_slice()),
        _ => false,
    }
}
/// Whether `<` after the last of the types would open generic arguments.
pub fn last_lacks_args(types: &[Ty]) -> bool {
    match types.last() {
        Some(ty) => type_lacks_args(ty),
        None => false,
    }
}
/// Whether the expression is a struct literal.
pub fn is_struct(expr: &Expr) -> bool {
    matches!(expr, Expr::Struct { .. })
}
/// Whether the expression ends a statement without a `;`: it ends in a block of its own, or is a
/// macro call in braces.
pub fn is_block_like(expr: &Expr) -> bool {
    match expr {
        Expr::Call { call } => is_brace(call.tokens.delim),
        Expr::Block { .. } | Expr::Unsafe { .. } | Expr::ConstBlock { .. }
        | Expr::If { .. } | Expr::Match { .. } | Expr::Loop { .. } | Expr::While { .. }
        | Expr::For { .. } => true,
        _ => false,
    }
}
/// Whether the delimiter is a brace.
fn is_brace(delim: Delim) -> bool {
    matches!(delim, Delim::Brace)
}
/// Whether the expression is a macro call.
pub fn is_macro(expr: &Expr) -> bool {
    matches!(expr, Expr::Call { .. })
}
/// Whether the comma of an arm may be left out after the expression.
pub fn is_free(expr: &Expr) -> bool {
    is_block_like(expr) && !is_macro(expr)
}
