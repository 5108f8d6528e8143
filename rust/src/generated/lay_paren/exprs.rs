//! Made by scripts/rust.sh from crates/lay_paren/src/exprs.rt, which is proved: change that.
//!
//! Parentheses in expressions, and in their fields and steps.
use crate::generated::lay_paren::blocks::{
    place_arms,
    place_block,
    place_block_or_none,
    place_branches,
};
use crate::generated::lay_paren::conditions::place_condition;
use crate::generated::lay_paren::places::{
    as_node,
    base_place,
    begins,
    first_place,
    is_index_first,
    level_by,
    operand_place,
};
use crate::generated::lay_paren::slots::{Slot, fits};
use crate::generated::lay_code::{Boxed, Expr, FieldExpr, Lifetime, Op, Place, Step};
use crate::generated::lay_ops::places::{FREE, before_op, plain};
use crate::generated::lay_token::{List, NoMemory};
use crate::shims::Global;
use core::mem;
/// Puts an expression into parentheses.
pub(crate) fn enclose(alloc: Global, expr: &mut Expr) -> Result<(), NoMemory> {
    let inner = mem::replace(expr, Expr::Underscore);
    *expr = Expr::Paren { inner: Boxed::new(alloc, inner)? };
    Ok(())
}
/// Puts the parentheses that an expression lacks at its place and in its slot. Whether it gets a
/// pair itself is decided before its parts get theirs, since parts of an expression in parentheses
/// have other places. No pair is ever removed.
pub(crate) fn place_expr(
    alloc: Global,
    expr: &mut Expr,
    place: Place,
    slot: Slot,
) -> Result<(), NoMemory> {
    if fits(expr, place, slot) {
        return place_parts(alloc, expr, place);
    }
    place_parts(alloc, expr, FREE)?;
    enclose(alloc, expr)
}
/// Puts the parentheses that the parts of an expression lack, if the expression stands at `place`.
pub(crate) fn place_parts(
    alloc: Global,
    expr: &mut Expr,
    place: Place,
) -> Result<(), NoMemory> {
    match expr {
        Expr::Lit { .. } | Expr::Path { .. } | Expr::Underscore | Expr::Call { .. }
        | Expr::Continue { .. } => Ok(()),
        Expr::Paren { inner } => place_expr(alloc, inner.get_mut(), FREE, Slot::Any),
        Expr::Tuple { elements } => place_exprs(alloc, elements),
        Expr::Array { elements } => place_exprs(alloc, elements),
        Expr::Repeat { element, .. } => {
            place_expr(alloc, element.get_mut(), FREE, Slot::Any)
        }
        Expr::Struct { fields, base, .. } => {
            place_fields(alloc, fields)?;
            place_base(alloc, base)
        }
        Expr::Chain { first, rest } => {
            let level = level_by(rest.as_slice());
            let at = first_place(rest.as_slice(), place);
            place_expr(alloc, first.get_mut(), at, Slot::Any)?;
            place_operands(alloc, rest, level, place)
        }
        Expr::Cast { operand, .. } => {
            let at = before_op(12, place.no_struct, begins(place.start), false);
            place_expr(alloc, operand.get_mut(), at, Slot::Any)
        }
        Expr::Unary { operand, .. } => {
            place_expr(alloc, operand.get_mut(), as_node(place, 12), Slot::Prefixed)
        }
        Expr::Range { start, end, .. } => {
            let at = before_op(2, place.no_struct, begins(place.start), false);
            place_operand(alloc, start, at, Slot::Any)?;
            place_operand(alloc, end, as_node(place, 2), Slot::Optional)
        }
        Expr::Assign { targets, value } => {
            place_targets(alloc, targets, place)?;
            place_expr(alloc, value.get_mut(), as_node(place, 1), Slot::Any)
        }
        Expr::Postfix { base, steps } => {
            place_steps(alloc, steps)?;
            let at = base_place(steps.as_slice(), place);
            let slot = base_slot(steps.as_slice());
            place_expr(alloc, base.get_mut(), at, slot)
        }
        Expr::Block { body, .. } => place_block(alloc, body),
        Expr::Unsafe { body } => place_block(alloc, body),
        Expr::ConstBlock { body } => place_block(alloc, body),
        Expr::Async { body, .. } => place_block(alloc, body),
        Expr::Loop { body, .. } => place_block(alloc, body),
        Expr::TypedClosure { body, .. } => place_block(alloc, body),
        Expr::If { branches, otherwise } => {
            place_branches(alloc, branches)?;
            place_block_or_none(alloc, otherwise)
        }
        Expr::Match { scrutinee, arms, .. } => {
            place_expr(alloc, scrutinee.get_mut(), plain(0, true), Slot::Any)?;
            place_arms(alloc, arms)
        }
        Expr::While { condition, body, .. } => {
            place_condition(alloc, condition)?;
            place_block(alloc, body)
        }
        Expr::For { iterated, body, .. } => {
            place_expr(alloc, iterated.get_mut(), plain(0, true), Slot::Any)?;
            place_block(alloc, body)
        }
        Expr::Closure { body, .. } => {
            place_expr(alloc, body.get_mut(), plain(0, place.no_struct), Slot::Any)
        }
        Expr::Return { operand } => {
            place_operand(alloc, operand, plain(0, place.no_struct), Slot::Optional)
        }
        Expr::Break { label, operand } => {
            let slot = break_slot(label);
            place_operand(alloc, operand, plain(0, place.no_struct), slot)
        }
    }
}
/// The slot of the expression before these postfix steps.
fn base_slot(steps: &[Step]) -> Slot {
    if is_index_first(steps) { Slot::BeforeIndex } else { Slot::Any }
}
/// The slot of the operand of a `break`, with or without a label.
fn break_slot(label: &Option<Lifetime>) -> Slot {
    match label {
        Some(_) => Slot::Optional,
        None => Slot::Unlabelled,
    }
}
/// Puts the parentheses that expressions within delimiters lack.
fn place_exprs(alloc: Global, exprs: &mut List<Expr>) -> Result<(), NoMemory> {
    place_each_expr(alloc, exprs.as_mut_slice())
}
/// Puts the missing parentheses in each of the expressions.
fn place_each_expr(alloc: Global, exprs: &mut [Expr]) -> Result<(), NoMemory> {
    for expr in exprs.iter_mut() {
        place_expr(alloc, expr, FREE, Slot::Any)?;
    }
    Ok(())
}
/// Puts the missing parentheses in an optional operand.
pub(crate) fn place_operand(
    alloc: Global,
    operand: &mut Option<Boxed<Expr>>,
    place: Place,
    slot: Slot,
) -> Result<(), NoMemory> {
    match operand {
        Some(operand) => place_expr(alloc, operand.get_mut(), place, slot),
        None => Ok(()),
    }
}
/// Puts the missing parentheses in the operands of a chain after the first; `level` is that of its
/// operators.
fn place_operands(
    alloc: Global,
    operands: &mut List<(Op, Boxed<Expr>)>,
    level: u8,
    place: Place,
) -> Result<(), NoMemory> {
    place_each_operand(alloc, operands.as_mut_slice(), level, place)
}
/// Puts the missing parentheses in each of the operands.
fn place_each_operand(
    alloc: Global,
    operands: &mut [(Op, Boxed<Expr>)],
    level: u8,
    place: Place,
) -> Result<(), NoMemory> {
    let count = operands.len();
    for index in 0..count {
        let next = if index + 1 < count { Some(operands[index + 1].0) } else { None };
        let at = operand_place(next, level, place);
        let operand = &mut operands[index];
        place_expr(alloc, operand.1.get_mut(), at, Slot::Any)?;
    }
    Ok(())
}
/// Puts the missing parentheses in the targets of an assignment.
fn place_targets(
    alloc: Global,
    targets: &mut List<(Boxed<Expr>, Op)>,
    place: Place,
) -> Result<(), NoMemory> {
    place_each_target(alloc, targets.as_mut_slice(), place)
}
/// Puts the missing parentheses in each of the targets.
fn place_each_target(
    alloc: Global,
    targets: &mut [(Boxed<Expr>, Op)],
    place: Place,
) -> Result<(), NoMemory> {
    let mut first = begins(place.start);
    for (target, _) in targets.iter_mut() {
        let at = before_op(1, place.no_struct, first, false);
        place_expr(alloc, target.get_mut(), at, Slot::Any)?;
        first = false;
    }
    Ok(())
}
/// Puts the missing parentheses in the fields of a struct literal.
fn place_fields(alloc: Global, fields: &mut List<FieldExpr>) -> Result<(), NoMemory> {
    place_each_field(alloc, fields.as_mut_slice())
}
/// Puts the missing parentheses in each of the fields.
fn place_each_field(alloc: Global, fields: &mut [FieldExpr]) -> Result<(), NoMemory> {
    for field in fields.iter_mut() {
        place_field(alloc, field)?;
    }
    Ok(())
}
/// Puts the missing parentheses in a field of a struct literal.
fn place_field(alloc: Global, field: &mut FieldExpr) -> Result<(), NoMemory> {
    match field {
        FieldExpr::Named { value, .. } => {
            place_expr(alloc, value.get_mut(), FREE, Slot::Any)
        }
        FieldExpr::Numbered { value, .. } => {
            place_expr(alloc, value.get_mut(), FREE, Slot::Any)
        }
        FieldExpr::Short { .. } => Ok(()),
    }
}
/// Puts the missing parentheses in the base of a struct literal, if it has one.
fn place_base(
    alloc: Global,
    base: &mut Option<Option<Boxed<Expr>>>,
) -> Result<(), NoMemory> {
    match base {
        Some(Some(base)) => place_expr(alloc, base.get_mut(), FREE, Slot::Any),
        _ => Ok(()),
    }
}
/// Puts the missing parentheses in postfix steps.
fn place_steps(alloc: Global, steps: &mut List<Step>) -> Result<(), NoMemory> {
    place_each_step(alloc, steps.as_mut_slice())
}
/// Puts the missing parentheses in each of the steps.
fn place_each_step(alloc: Global, steps: &mut [Step]) -> Result<(), NoMemory> {
    for step in steps.iter_mut() {
        place_step(alloc, step)?;
    }
    Ok(())
}
/// Puts the missing parentheses in a postfix step.
fn place_step(alloc: Global, step: &mut Step) -> Result<(), NoMemory> {
    match step {
        Step::Field { .. } | Step::TupleIndex { .. } | Step::Try | Step::Await => Ok(()),
        Step::Method { args, .. } => place_exprs(alloc, args),
        Step::Apply { args } => place_exprs(alloc, args),
        Step::Index { index } => place_expr(alloc, index.get_mut(), FREE, Slot::Any),
    }
}
