//! Made by scripts/rust.sh from crates/lay_depth/src/items.rt, which is proved: change that.
//!
//! The depth of items.
use crate::generated::lay_depth::blocks::block_or_none_depth;
use crate::generated::lay_depth::exprs::operand_depth;
use crate::generated::lay_depth::nodes::{
    alias_depth,
    deeper,
    enum_depth,
    fn_head_depth,
    impl_head_depth,
    struct_depth,
    trait_head_depth,
    union_depth,
    use_depth,
    value_head_depth,
    wheres_depth,
};
use crate::generated::lay_code::{Item, ItemKind};
/// The depth of an item.
pub(crate) fn item_depth(item: &Item) -> u32 {
    deeper(kind_depth(item.kind.get()))
}
/// The greatest depth of the items.
pub(crate) fn items_depth(items: &[Item]) -> u32 {
    let mut most = 0u32;
    for item in items {
        most = most.max(item_depth(item));
    }
    most
}
/// The depth of an item without its attributes and its visibility.
fn kind_depth(kind: &ItemKind) -> u32 {
    match kind {
        ItemKind::ExternCrate { .. } | ItemKind::FileModule { .. }
        | ItemKind::MacroRules { .. } | ItemKind::Call { .. } => 0,
        ItemKind::Import { tree } => use_depth(tree.get()),
        ItemKind::Module { items, .. } | ItemKind::Foreign { items, .. } => {
            items_depth(items.as_slice())
        }
        ItemKind::Function { head, wheres, body } => {
            fn_head_depth(head).max(wheres_depth(wheres)).max(block_or_none_depth(body))
        }
        ItemKind::Alias { item } => alias_depth(item),
        ItemKind::Struct { item } => struct_depth(item),
        ItemKind::Union { item } => union_depth(item),
        ItemKind::Enum { item } => enum_depth(item),
        ItemKind::Value { head, value } => {
            value_head_depth(head).max(operand_depth(value))
        }
        ItemKind::Trait { head, wheres, items, .. } => {
            trait_head_depth(head).max(wheres_depth(wheres))
                .max(items_depth(items.as_slice()))
        }
        ItemKind::Impl { head, wheres, items, .. } => {
            impl_head_depth(head).max(wheres_depth(wheres))
                .max(items_depth(items.as_slice()))
        }
    }
}
