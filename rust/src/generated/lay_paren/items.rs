//! Made by scripts/rust.sh from crates/lay_paren/src/items.rt, which is proved: change that.
//!
//! Parentheses in items.
use crate::generated::lay_paren::blocks::place_block_or_none;
use crate::generated::lay_paren::exprs::place_operand;
use crate::generated::lay_paren::slots::Slot;
use crate::generated::lay_code::{Item, ItemKind};
use crate::generated::lay_ops::places::FREE;
use crate::generated::lay_token::{List, NoMemory};
use crate::shims::Global;
/// Puts the parentheses that the expressions in an item lack.
pub(crate) fn place_item(alloc: Global, item: &mut Item) -> Result<(), NoMemory> {
    place_kind(alloc, item.kind.get_mut())
}
/// Puts the missing parentheses in items.
fn place_items(alloc: Global, items: &mut List<Item>) -> Result<(), NoMemory> {
    place_each_item(alloc, items.as_mut_slice())
}
/// Puts the missing parentheses in each of the items.
fn place_each_item(alloc: Global, items: &mut [Item]) -> Result<(), NoMemory> {
    for item in items.iter_mut() {
        place_item(alloc, item)?;
    }
    Ok(())
}
/// Puts the missing parentheses in what an item is.
fn place_kind(alloc: Global, kind: &mut ItemKind) -> Result<(), NoMemory> {
    match kind {
        ItemKind::Module { items, .. } => place_items(alloc, items),
        ItemKind::Trait { items, .. } => place_items(alloc, items),
        ItemKind::Impl { items, .. } => place_items(alloc, items),
        ItemKind::Foreign { items, .. } => place_items(alloc, items),
        ItemKind::Function { body, .. } => place_block_or_none(alloc, body),
        ItemKind::Value { value, .. } => place_operand(alloc, value, FREE, Slot::Any),
        _ => Ok(()),
    }
}
