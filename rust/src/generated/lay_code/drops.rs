//! Made by scripts/rust.sh from crates/lay_code/src/drops.rt, which is proved: change that.
//!
//! Dropping of trees: each node drops the nodes within it.
//!
//! Parts that a pattern leaves unbound would be dropped where its match arm ends, guarded by drop
//! flags. Such code is costly to prove. So each node is taken apart completely, and a function here
//! drops each part.
use crate::generated::lay_code::blocks::{Arm, Block, Branch, Stmt};
use crate::generated::lay_code::conditions::Link;
use crate::generated::lay_code::exprs::{Expr, FieldExpr, Step};
use crate::generated::lay_code::item::{Item, ItemKind};
use crate::generated::lay_code::operators::Op;
use crate::generated::lay_node::Boxed;
use crate::generated::lay_token::List;
/// Drops the boxed expression.
pub(crate) fn discard_boxed(node: Boxed<Expr>) {
    drop(node.into_inner());
}
/// Drops the expressions.
pub(crate) fn discard_exprs(nodes: List<Expr>) {
    let mut left = nodes.into_vec();
    while let Some(node) = left.pop() {
        drop(node);
    }
    left.destroy_empty();
}
/// Drops the fields of a struct literal.
pub(crate) fn discard_fields(nodes: List<FieldExpr>) {
    let mut left = nodes.into_vec();
    while let Some(node) = left.pop() {
        drop(node);
    }
    left.destroy_empty();
}
/// Drops the base of a struct literal, if there is one.
pub(crate) fn discard_base(node: Option<Option<Boxed<Expr>>>) {
    match node {
        Some(Some(node)) => drop(node.into_inner()),
        Some(None) => {}
        None => {}
    }
}
/// Drops the operands of a chain.
pub(crate) fn discard_operands(nodes: List<(Op, Boxed<Expr>)>) {
    let mut left = nodes.into_vec();
    while let Some((_, node)) = left.pop() {
        drop(node.into_inner());
    }
    left.destroy_empty();
}
/// Drops an optional expression: an operand, a value or a guard.
pub(crate) fn discard_operand(node: Option<Boxed<Expr>>) {
    match node {
        Some(node) => drop(node.into_inner()),
        None => {}
    }
}
/// Drops the targets of an assignment.
pub(crate) fn discard_targets(nodes: List<(Boxed<Expr>, Op)>) {
    let mut left = nodes.into_vec();
    while let Some((node, _)) = left.pop() {
        drop(node.into_inner());
    }
    left.destroy_empty();
}
/// Drops postfix steps.
pub(crate) fn discard_steps(nodes: List<Step>) {
    let mut left = nodes.into_vec();
    while let Some(node) = left.pop() {
        drop(node);
    }
    left.destroy_empty();
}
/// Drops branches.
pub(crate) fn discard_branches(nodes: List<Branch>) {
    let mut left = nodes.into_vec();
    while let Some(node) = left.pop() {
        drop(node);
    }
    left.destroy_empty();
}
/// Drops the links of a condition.
pub(crate) fn discard_links(nodes: List<Link>) {
    let mut left = nodes.into_vec();
    while let Some(node) = left.pop() {
        drop(node);
    }
    left.destroy_empty();
}
/// Drops an optional block.
pub(crate) fn discard_otherwise(node: Option<Block>) {
    match node {
        Some(node) => drop(node),
        None => {}
    }
}
/// Drops the arms of a match.
pub(crate) fn discard_arms(nodes: List<Arm>) {
    let mut left = nodes.into_vec();
    while let Some(node) = left.pop() {
        drop(node);
    }
    left.destroy_empty();
}
/// Drops the boxed item.
pub(crate) fn discard_boxed_item(node: Boxed<Item>) {
    drop(node.into_inner());
}
/// Drops the boxed kind of an item.
pub(crate) fn discard_kind(node: Boxed<ItemKind>) {
    drop(node.into_inner());
}
/// Drops statements.
pub(crate) fn discard_stmts(nodes: List<Stmt>) {
    let mut left = nodes.into_vec();
    while let Some(node) = left.pop() {
        drop(node);
    }
    left.destroy_empty();
}
/// Drops items.
pub(crate) fn discard_items(nodes: List<Item>) {
    let mut left = nodes.into_vec();
    while let Some(node) = left.pop() {
        drop(node);
    }
    left.destroy_empty();
}
