//! Made by scripts/rust.sh from crates/lay_build_exprs/src/operands.rt, which is proved: change that.
//!
//! Parentheses round parts that need them. A function is lent an expression with the depth that it
//! needs, and gives the depth that it needs afterwards.
use crate::generated::lay_build_types::{BuildError, boxed};
use crate::generated::lay_code::{Expr, Step};
use crate::shims::Global;
use core::mem;
/// An operand of an operator, or the base of a field or a method.
pub(crate) fn operand(
    alloc: Global,
    expr: &mut Expr,
    need: u32,
) -> Result<u32, BuildError> {
    let stands = is_operand(expr);
    unless(alloc, stands, expr, need)
}
/// The callee of a call. Directly after a field name the arguments would be those of a method call.
pub(crate) fn callee(
    alloc: Global,
    expr: &mut Expr,
    need: u32,
) -> Result<u32, BuildError> {
    if ends_in_field(expr) {
        return unless(alloc, false, expr, need);
    }
    operand(alloc, expr, need)
}
/// The condition of an `if`.
pub(crate) fn test(
    alloc: Global,
    expr: &mut Expr,
    need: u32,
) -> Result<u32, BuildError> {
    let stands = is_operand(expr) || is_chain(expr);
    unless(alloc, stands, expr, need)
}
/// Puts the expression in parentheses, unless it may stand as it is.
fn unless(
    alloc: Global,
    stands: bool,
    expr: &mut Expr,
    need: u32,
) -> Result<u32, BuildError> {
    if stands {
        return Ok(need);
    }
    put_in_parens(alloc, expr)?;
    Ok(need + 1)
}
/// Puts an expression in parentheses.
fn put_in_parens(alloc: Global, expr: &mut Expr) -> Result<(), BuildError> {
    let bare = mem::replace(expr, Expr::Underscore);
    let inner = boxed(alloc, bare)?;
    *expr = Expr::Paren { inner };
    Ok(())
}
/// Whether the expression may be an operand or the base of a step as it is.
fn is_operand(expr: &Expr) -> bool {
    matches!(
        expr, Expr::Lit { .. } | Expr::Path { .. } | Expr::Paren { .. } | Expr::Tuple
        { .. } | Expr::Postfix { .. }
    )
}
/// Whether the expression is a chain of operators.
fn is_chain(expr: &Expr) -> bool {
    matches!(expr, Expr::Chain { .. })
}
/// Whether the expression ends in the name of a field.
fn ends_in_field(expr: &Expr) -> bool {
    match expr {
        Expr::Postfix { steps, .. } => field_last(steps.as_slice()),
        _ => false,
    }
}
/// Whether the last step is a field access.
fn field_last(steps: &[Step]) -> bool {
    match steps.last() {
        Some(step) => is_field(step),
        None => false,
    }
}
/// Whether a step is a field access.
fn is_field(step: &Step) -> bool {
    matches!(step, Step::Field { .. })
}
