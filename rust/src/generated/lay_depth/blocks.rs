//! Made by scripts/rust.sh from crates/lay_depth/src/blocks.rt, which is proved: change that.
//!
//! The depth of blocks, statements, branches and arms.
use crate::generated::lay_depth::conditions::condition_depth;
use crate::generated::lay_depth::exprs::{expr_depth, operand_depth};
use crate::generated::lay_depth::items::item_depth;
use crate::generated::lay_depth::nodes::{deeper, pat_depth, type_or_none_depth};
use crate::generated::lay_code::{Arm, Block, Branch, Stmt};
/// The depth of a block: that of its deepest statement.
pub(crate) fn block_depth(block: &Block) -> u32 {
    let mut most = 0u32;
    for stmt in block.stmts.as_slice() {
        most = most.max(stmt_depth(stmt));
    }
    most
}
/// The depth of an optional block; 0 if there is none.
pub(crate) fn block_or_none_depth(block: &Option<Block>) -> u32 {
    match block {
        Some(block) => block_depth(block),
        None => 0,
    }
}
/// The depth of a statement. The block after an `else` counts one level more.
fn stmt_depth(stmt: &Stmt) -> u32 {
    match stmt {
        Stmt::Let { pat, ty, value, otherwise, .. } => {
            let bound = pat_depth(pat).max(type_or_none_depth(ty));
            let given = bound.max(operand_depth(value));
            match otherwise {
                Some(block) => given.max(deeper(block_depth(block))),
                None => given,
            }
        }
        Stmt::Item { item } => item_depth(item.get()),
        Stmt::Expr { expr, .. } => expr_depth(expr.get()),
    }
}
/// The greatest depth of the branches.
pub(crate) fn branches_depth(branches: &[Branch]) -> u32 {
    let mut most = 0u32;
    for branch in branches {
        most = most.max(
            condition_depth(&branch.condition).max(block_depth(&branch.body)),
        );
    }
    most
}
/// The greatest depth of the arms. The body of an arm counts one level more.
pub(crate) fn arms_depth(arms: &[Arm]) -> u32 {
    let mut most = 0u32;
    for arm in arms {
        let head = pat_depth(&arm.pat).max(operand_depth(&arm.guard));
        most = most.max(head.max(deeper(expr_depth(arm.body.get()))));
    }
    most
}
