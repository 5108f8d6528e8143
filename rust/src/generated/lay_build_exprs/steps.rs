//! Made by scripts/rust.sh from crates/lay_build_exprs/src/steps.rt, which is proved: change that.
//!
//! Builders of field accesses, method calls and calls. The base is lent with the depth that it
//! needs, and becomes the whole expression.
use crate::generated::lay_build_exprs::keeping::kept_with;
use crate::generated::lay_build_exprs::operands::{callee, operand};
use crate::generated::lay_build_types::{
    BuildError,
    BuiltExpr,
    BuiltName,
    boxed,
    keep,
    nodes,
    one,
};
use crate::generated::lay_code::{Expr, Name, Step};
use crate::generated::lay_text::List;
use crate::shims::Global;
use core::mem;
/// A field access: `a.b`.
pub fn expr_field(
    alloc: Global,
    base: BuiltExpr,
    field: BuiltName,
) -> Result<BuiltExpr, BuildError> {
    let (name, _) = field.into_parts();
    let (mut base, need) = base.into_parts();
    let need = add_field(alloc, &mut base, need, name);
    kept_with(base, need)
}
/// Adds a field access to a base.
fn add_field(
    alloc: Global,
    base: &mut Expr,
    need: u32,
    name: Name,
) -> Result<u32, BuildError> {
    let need = operand(alloc, base, need)?;
    stepped(alloc, base, need, Step::Field { name }, 0)
}
/// A method call: `a.b(c, d)`.
pub fn expr_method(
    alloc: Global,
    base: BuiltExpr,
    method: BuiltName,
    args: List<BuiltExpr>,
) -> Result<BuiltExpr, BuildError> {
    let (name, _) = method.into_parts();
    let (mut base, need) = base.into_parts();
    let need = add_method(alloc, &mut base, need, name, args);
    kept_with(base, need)
}
/// Adds a method call to a base.
fn add_method(
    alloc: Global,
    base: &mut Expr,
    need: u32,
    name: Name,
    args: List<BuiltExpr>,
) -> Result<u32, BuildError> {
    let need = operand(alloc, base, need)?;
    let (args, more) = nodes(alloc, args)?;
    let step = Step::Method { name, generics: None, args };
    stepped(alloc, base, need, step, more)
}
/// A call: `a(b, c)`. A base that ends in the name of a field is put in parentheses: `(a.b)(c)`.
pub fn expr_call(
    alloc: Global,
    base: BuiltExpr,
    args: List<BuiltExpr>,
) -> Result<BuiltExpr, BuildError> {
    let (mut base, need) = base.into_parts();
    let need = add_call(alloc, &mut base, need, args);
    kept_with(base, need)
}
/// Adds a call to a base.
fn add_call(
    alloc: Global,
    base: &mut Expr,
    need: u32,
    args: List<BuiltExpr>,
) -> Result<u32, BuildError> {
    let need = callee(alloc, base, need)?;
    let (args, more) = nodes(alloc, args)?;
    stepped(alloc, base, need, Step::Apply { args }, more)
}
/// Adds a step to a base, after the steps that it has, and gives the depth that the whole needs.
fn stepped(
    alloc: Global,
    base: &mut Expr,
    need: u32,
    step: Step,
    more: u32,
) -> Result<u32, BuildError> {
    let need = if has_steps(base) { need.max(more + 1) } else { need.max(more) + 1 };
    add_step(alloc, base, step)?;
    Ok(need)
}
/// Whether a base has steps.
fn has_steps(base: &Expr) -> bool {
    matches!(base, Expr::Postfix { .. })
}
/// Adds a step to a base, after the steps that it has.
fn add_step(alloc: Global, base: &mut Expr, step: Step) -> Result<(), BuildError> {
    match base {
        Expr::Postfix { steps, .. } => keep(steps, step),
        _ => add_first_step(alloc, base, step),
    }
}
/// Adds a step to a base that has none.
fn add_first_step(alloc: Global, base: &mut Expr, step: Step) -> Result<(), BuildError> {
    let steps = one(alloc, step)?;
    let bare = mem::replace(base, Expr::Underscore);
    let inner = boxed(alloc, bare)?;
    *base = Expr::Postfix { base: inner, steps };
    Ok(())
}
