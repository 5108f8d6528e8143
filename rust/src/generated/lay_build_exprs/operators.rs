//! Made by scripts/rust.sh from crates/lay_build_exprs/src/operators.rt, which is proved: change that.
//!
//! Builders of operators. The left operand is lent, and becomes the whole expression.
use crate::generated::lay_build_exprs::keeping::kept_with;
use crate::generated::lay_build_exprs::operands::operand;
use crate::generated::lay_build_types::{BuildError, BuiltExpr, boxed, one};
use crate::generated::lay_code::{Boxed, Expr, Op};
use crate::shims::Global;
use core::mem;
/// A binary operator: `a + b`. The operator is no assignment and no range.
pub fn expr_binary(
    alloc: Global,
    op: Op,
    left: BuiltExpr,
    right: BuiltExpr,
) -> Result<BuiltExpr, BuildError> {
    let (mut left, need) = left.into_parts();
    let (right, more) = right.into_parts();
    let need = add_operand(alloc, &mut left, need, op, right, more);
    kept_with(left, need)
}
/// Adds an operator and its right operand to the left one.
fn add_operand(
    alloc: Global,
    left: &mut Expr,
    need: u32,
    op: Op,
    right: Expr,
    more: u32,
) -> Result<u32, BuildError> {
    let mut right = right;
    let more = operand(alloc, &mut right, more);
    let right = boxed(alloc, right)?;
    let more = more?;
    let need = operand(alloc, left, need)?;
    chain(alloc, left, op, right)?;
    let need = need.max(more) + 1;
    Ok(need)
}
/// Makes a chain of the left operand, an operator and the right operand. The operands have the
/// parentheses that they need.
fn chain(
    alloc: Global,
    left: &mut Expr,
    op: Op,
    right: Boxed<Expr>,
) -> Result<(), BuildError> {
    let rest = one(alloc, (op, right))?;
    let bare = mem::replace(left, Expr::Underscore);
    let first = boxed(alloc, bare)?;
    *left = Expr::Chain { first, rest };
    Ok(())
}
