//! Made by scripts/rust.sh from crates/lay_read_begun/src/bodies.rt, which is proved: change that.
//!
//! The kinds of bodies of items, and items put together with their bodies.
use crate::generated::lay_read_begun::begun::{Begun, Whole};
use crate::generated::lay_code::{
    Attr,
    Block,
    Boxed,
    Expr,
    FnHead,
    Item,
    ItemKind,
    Site,
    ValueHead,
    Wheres,
};
use crate::generated::lay_read_head_rules::level::kept_if;
use crate::generated::lay_read_parts::joins::refused;
use crate::generated::lay_read_tokens::found::greater;
use crate::generated::lay_read_tokens::{Found, ReadNone};
use crate::generated::lay_token::List;
/// The kind of body that this item has.
#[derive(Clone, Copy,)]
pub enum Body {
    /// No body, or one that was read already.
    None,
    /// Items at this site.
    Items(Site),
    /// A block, or a `;`.
    Block,
    /// A value and a `;`, or the `;` alone.
    Value,
}
/// The kind of body that this item has.
pub fn body_of(begun: &Begun) -> Body {
    match begun {
        Begun::Whole { .. } => Body::None,
        Begun::Module { .. } => Body::Items(Site::Module),
        Begun::Trait { .. } => Body::Items(Site::TraitMember),
        Begun::Impl { .. } => Body::Items(Site::Member),
        Begun::Foreign { .. } => Body::Items(Site::Foreign),
        Begun::Function { .. } => Body::Block,
        Begun::Value { .. } => Body::Value,
    }
}
/// The `ItemKind` of an item without a body.
fn kind_of(item: Whole) -> ItemKind {
    match item {
        Whole::ExternCrate { item } => ItemKind::ExternCrate { item },
        Whole::Import { tree } => ItemKind::Import { tree },
        Whole::FileModule { name } => ItemKind::FileModule { name },
        Whole::Alias { item } => ItemKind::Alias { item },
        Whole::Struct { item } => ItemKind::Struct { item },
        Whole::Union { item } => ItemKind::Union { item },
        Whole::Enum { item } => ItemKind::Enum { item },
        Whole::MacroRules { name, rules } => ItemKind::MacroRules { name, rules },
        Whole::Call { call } => ItemKind::Call { call },
    }
}
/// The item with the inner attributes and items of its body, if it has one.
pub fn with_items(begun: Begun, attrs: List<Attr>, items: List<Item>) -> ItemKind {
    match begun {
        Begun::Whole { item } => kind_of(item.into_inner()),
        Begun::Module { name } => ItemKind::Module { name, attrs, items },
        Begun::Trait { head, wheres } => {
            ItemKind::Trait { head: head.into_inner(), wheres, attrs, items }
        }
        Begun::Impl { head, wheres } => {
            ItemKind::Impl { head: head.into_inner(), wheres, attrs, items }
        }
        Begun::Foreign { is_unsafe, abi } => {
            ItemKind::Foreign { is_unsafe, abi, attrs, items }
        }
        Begun::Function { head, wheres } => {
            ItemKind::Function { head: head.into_inner(), wheres, body: None }
        }
        Begun::Value { head } => {
            ItemKind::Value { head: head.into_inner(), value: None }
        }
    }
}
/// Whether a function may stand at this site with a body, or without one, as `bodied` says.
fn may_be_bodied(site: Site, bodied: bool) -> bool {
    match site {
        Site::Foreign => !bodied,
        Site::TraitMember => true,
        _ => bodied,
    }
}
/// Whether a constant or a static may stand at this site with a value, or without one, as `valued`
/// says.
fn may_be_valued(site: Site, head: &ValueHead, valued: bool) -> bool {
    let constant = matches!(head, ValueHead::Const { .. });
    match (site, valued) {
        (Site::Module, valued) => valued,
        (Site::Member, valued) => valued && constant,
        (Site::TraitMember, _) => constant,
        (Site::Foreign, valued) => !valued && !constant,
    }
}
/// The function with its body, or without one, if that is allowed at its site.
pub fn with_block(
    begun: Found<Begun>,
    site: Site,
    body: Found<Option<Block>>,
) -> Result<Found<ItemKind>, ReadNone> {
    let need = greater(begun.need, body.need);
    let keeps = may_be_bodied(site, body.node.is_some());
    match begun.node {
        Begun::Function { head, wheres } => {
            kept_if(
                Found {
                    need,
                    node: ItemKind::Function {
                        head: head.into_inner(),
                        wheres,
                        body: body.node,
                    },
                },
                keeps,
            )
        }
        other => refused(other),
    }
}
/// The constant or static with its value, or without one, if that is allowed at its site.
pub fn with_value(
    begun: Found<Begun>,
    site: Site,
    value: Found<Option<Boxed<Expr>>>,
) -> Result<Found<ItemKind>, ReadNone> {
    let need = greater(begun.need, value.need);
    match begun.node {
        Begun::Value { head } => {
            let keeps = may_be_valued(site, head.get(), value.node.is_some());
            kept_if(
                Found {
                    need,
                    node: ItemKind::Value { head: head.into_inner(), value: value.node },
                },
                keeps,
            )
        }
        other => refused(other),
    }
}
