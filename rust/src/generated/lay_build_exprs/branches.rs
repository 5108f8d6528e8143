//! Made by scripts/rust.sh from crates/lay_build_exprs/src/branches.rt, which is proved: change that.
//!
//! Builders of `if` expressions. The condition is lent, and becomes the whole expression.
use crate::generated::lay_build_exprs::keeping::kept_with;
use crate::generated::lay_build_exprs::operands;
use crate::generated::lay_build_types::{
    BuildError,
    BuiltBlock,
    BuiltExpr,
    boxed,
    one,
    part_or_none,
};
use crate::generated::lay_code::{Block, Branch, Condition, Expr, Link};
use crate::generated::lay_text::List;
use crate::shims::Global;
use core::mem;
/// An `if` expression: `if a { b }`, or with `otherwise`, `if a { b } else { c }`.
pub fn expr_if(
    alloc: Global,
    test: BuiltExpr,
    then: BuiltBlock,
    other: Option<BuiltBlock>,
) -> Result<BuiltExpr, BuildError> {
    let (mut test, need) = test.into_parts();
    let (body, more) = then.into_parts();
    let (otherwise, most) = part_or_none(other);
    let need = add_blocks(alloc, &mut test, need, body, otherwise, more.max(most));
    kept_with(test, need)
}
/// Adds the blocks, of which the deeper one needs this depth, to the condition.
fn add_blocks(
    alloc: Global,
    test: &mut Expr,
    need: u32,
    body: Block,
    otherwise: Option<Block>,
    blocks: u32,
) -> Result<u32, BuildError> {
    let need = operands::test(alloc, test, need)?;
    one_branch(alloc, test, body, otherwise)?;
    let need = (need + 1).max(blocks);
    Ok(need)
}
/// A branch of the condition, which may stand so.
fn one_branch(
    alloc: Global,
    test: &mut Expr,
    body: Block,
    otherwise: Option<Block>,
) -> Result<(), BuildError> {
    let links = links(alloc, test)?;
    let branch = Branch { condition: Condition { links }, body };
    let branches = one(alloc, branch)?;
    *test = Expr::If { branches, otherwise };
    Ok(())
}
/// The links of a condition that is one expression, which is taken.
fn links(alloc: Global, test: &mut Expr) -> Result<List<Link>, BuildError> {
    let bare = mem::replace(test, Expr::Underscore);
    let expr = boxed(alloc, bare)?;
    one(alloc, Link::Expr { expr })
}
