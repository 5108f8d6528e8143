//! Made by scripts/rust.sh from crates/lay_tree/src/equal.rt, which is proved: change that.
//!
//! Whether two expressions, blocks or items are equal.
use crate::generated::lay_tree::exprs;
use crate::generated::lay_code::{Arm, Block, Expr, Item, Stmt};
use crate::generated::lay_paren_defs::AsIs;
/// Whether two expressions are equal.
pub fn same_expr(expr: &Expr, other: &Expr) -> bool {
    exprs::same_whole::<AsIs>(expr, other)
}
/// Whether two blocks are equal.
pub fn same_block(block: &Block, other: &Block) -> bool {
    exprs::same_block::<AsIs>(block, other)
}
/// Whether two statements are equal.
pub fn same_stmt(stmt: &Stmt, other: &Stmt) -> bool {
    exprs::same_stmt::<AsIs>(stmt, other)
}
/// Whether two arms are equal.
pub fn same_arm(arm: &Arm, other: &Arm) -> bool {
    exprs::same_arm::<AsIs>(arm, other)
}
/// Whether two items are equal.
pub fn same_item(item: &Item, other: &Item) -> bool {
    exprs::same_item::<AsIs>(item, other)
}
/// Whether two lists of items are equal.
pub fn same_items(items: &[Item], others: &[Item]) -> bool {
    exprs::same_items::<AsIs>(items, others)
}
