//! Made by scripts/rust.sh from crates/lay_paren/src/blocks.rt, which is proved: change that.
//!
//! Parentheses in blocks, statements, branches and arms.
use crate::generated::lay_paren::conditions::place_condition;
use crate::generated::lay_paren::exprs::{
    enclose,
    place_expr,
    place_operand,
    place_parts,
};
use crate::generated::lay_paren::items::place_item;
use crate::generated::lay_paren::slots::Slot;
use crate::generated::lay_code::{Arm, Block, Boxed, Branch, Expr, Stmt};
use crate::generated::lay_ops::places::{FREE, STATEMENT};
use crate::generated::lay_ops_ends::may_precede_else;
use crate::generated::lay_token::{List, NoMemory};
use crate::shims::Global;
/// Puts the parentheses that the expressions in a block lack.
pub(crate) fn place_block(alloc: Global, block: &mut Block) -> Result<(), NoMemory> {
    place_stmts(alloc, &mut block.stmts)
}
/// Puts the missing parentheses in an optional block.
pub(crate) fn place_block_or_none(
    alloc: Global,
    block: &mut Option<Block>,
) -> Result<(), NoMemory> {
    match block {
        Some(block) => place_block(alloc, block),
        None => Ok(()),
    }
}
/// Puts the missing parentheses in statements.
fn place_stmts(alloc: Global, stmts: &mut List<Stmt>) -> Result<(), NoMemory> {
    place_each_stmt(alloc, stmts.as_mut_slice())
}
/// Puts the missing parentheses in each of the statements.
fn place_each_stmt(alloc: Global, stmts: &mut [Stmt]) -> Result<(), NoMemory> {
    for stmt in stmts.iter_mut() {
        place_stmt(alloc, stmt)?;
    }
    Ok(())
}
/// Puts the missing parentheses in a statement.
fn place_stmt(alloc: Global, stmt: &mut Stmt) -> Result<(), NoMemory> {
    match stmt {
        Stmt::Let { value, otherwise, .. } => {
            place_value(alloc, value, otherwise.is_some())?;
            place_block_or_none(alloc, otherwise)
        }
        Stmt::Item { item } => place_item(alloc, item.get_mut()),
        Stmt::Expr { expr, .. } => {
            place_expr(alloc, expr.get_mut(), STATEMENT, Slot::Any)
        }
    }
}
/// Puts the missing parentheses in the value of a `let`, if it has one; `before_else` says that an
/// `else` follows.
fn place_value(
    alloc: Global,
    value: &mut Option<Boxed<Expr>>,
    before_else: bool,
) -> Result<(), NoMemory> {
    match value {
        Some(value) => {
            if before_else { place_before_else(alloc, value.get_mut()) } else {
                place_expr(alloc, value.get_mut(), FREE, Slot::Any)
            }
        }
        None => Ok(()),
    }
}
/// Puts the missing parentheses in a value that stands before an `else`. Its parts are placed as if
/// the value stood in parentheses. Then the value gets a pair if it can't precede the `else`, which
/// depends on the parentheses that its parts got.
fn place_before_else(alloc: Global, value: &mut Expr) -> Result<(), NoMemory> {
    place_parts(alloc, value, FREE)?;
    if may_precede_else(value) {
        return Ok(());
    }
    enclose(alloc, value)
}
/// Puts the missing parentheses in branches.
pub(crate) fn place_branches(
    alloc: Global,
    branches: &mut List<Branch>,
) -> Result<(), NoMemory> {
    place_each_branch(alloc, branches.as_mut_slice())
}
/// Puts the missing parentheses in each of the branches.
fn place_each_branch(alloc: Global, branches: &mut [Branch]) -> Result<(), NoMemory> {
    for branch in branches.iter_mut() {
        place_branch(alloc, branch)?;
    }
    Ok(())
}
/// Puts the missing parentheses in a branch.
fn place_branch(alloc: Global, branch: &mut Branch) -> Result<(), NoMemory> {
    place_condition(alloc, &mut branch.condition)?;
    place_block(alloc, &mut branch.body)
}
/// Puts the missing parentheses in the arms of a match.
pub(crate) fn place_arms(alloc: Global, arms: &mut List<Arm>) -> Result<(), NoMemory> {
    place_each_arm(alloc, arms.as_mut_slice())
}
/// Puts the missing parentheses in each of the arms.
fn place_each_arm(alloc: Global, arms: &mut [Arm]) -> Result<(), NoMemory> {
    for arm in arms.iter_mut() {
        place_arm(alloc, arm)?;
    }
    Ok(())
}
/// Puts the missing parentheses in an arm.
fn place_arm(alloc: Global, arm: &mut Arm) -> Result<(), NoMemory> {
    place_operand(alloc, &mut arm.guard, FREE, Slot::Any)?;
    place_expr(alloc, arm.body.get_mut(), STATEMENT, Slot::Any)
}
