//! Made by scripts/rust.sh from crates/lay_read_code/src/knot.rt, which is proved: change that.
//!
//! The recursion: expressions, blocks and items, within a depth limit.
use crate::generated::lay_code::{
    Attr,
    Block,
    Boxed,
    Expr,
    Item,
    ItemKind,
    Place,
    Site,
    Vis,
};
use crate::generated::lay_read_begun::begun::{Begun, read_begun};
use crate::generated::lay_read_begun::bodies::{
    Body,
    body_of,
    with_block,
    with_items,
    with_value,
};
use crate::generated::lay_read_blocks::BlockRules;
use crate::generated::lay_read_branches::BranchRules;
use crate::generated::lay_read_exprs::Climber;
use crate::generated::lay_read_head_rules::level::kept_if;
use crate::generated::lay_read_head_rules::vis::vis_ahead;
use crate::generated::lay_read_operators::ExprRules;
use crate::generated::lay_read_parts::joins::both;
use crate::generated::lay_read_tokens::attributes::attrs_ahead;
use crate::generated::lay_read_tokens::found::greater;
use crate::generated::lay_read_tokens::front::{
    has_items,
    takes_closer,
    takes_mark,
    takes_opener,
};
use crate::generated::lay_read_tokens::stop::{boxed, keep};
use crate::generated::lay_read_tokens::{Ahead, Found, ReadNone};
use crate::generated::lay_token::{Delim, List};
use crate::shims::Global;
/// Parses an expression at its place, within `depth` levels. Each recursive call has one level
/// less.
#[inline(never)]
pub fn expr_ahead(
    alloc: Global,
    at: &mut Ahead<'_>,
    place: Place,
    depth: u32,
) -> Result<Found<Boxed<Expr>>, ReadNone> {
    if depth == 0 {
        return Err(ReadNone::NoReading);
    }
    let blocks = BlockRules {
        alloc,
        depth: depth - 1,
        exprs: expr_ahead,
        blocks: block_ahead,
        items: item_ahead,
    };
    let rules = ExprRules { alloc, depth: depth - 1, exprs: expr_ahead };
    let heads = BranchRules { rules: blocks };
    Climber { rules, heads }.expr_by(at, place)
}
/// Parses a block after an `else`, within `depth` levels. It counts one level more than what is
/// around it.
#[inline(never)]
pub fn block_ahead(
    alloc: Global,
    at: &mut Ahead<'_>,
    depth: u32,
) -> Result<Found<Block>, ReadNone> {
    if depth == 0 {
        return Err(ReadNone::NoReading);
    }
    let rules = BlockRules {
        alloc,
        depth: depth - 1,
        exprs: expr_ahead,
        blocks: block_ahead,
        items: item_ahead,
    };
    rules.deeper_block(at)
}
/// Parses items at their site, within `depth` levels, up to the `}` or the end.
#[inline(never)]
pub fn read_items(
    alloc: Global,
    at: &mut Ahead<'_>,
    site: Site,
    depth: u32,
) -> Result<Found<List<Item>>, ReadNone> {
    let mut items = List::new(alloc);
    let mut need = 0;
    while has_items(at) {
        let item = item_ahead(alloc, at, site, depth)?;
        need = greater(need, item.need);
        keep(&mut items, item.node)?;
    }
    Ok(Found { node: items, need })
}
/// Parses an item at its site, within `depth` levels, with its attributes and its visibility. Macro
/// calls and definitions have no visibility.
#[inline(never)]
pub fn item_ahead(
    alloc: Global,
    at: &mut Ahead<'_>,
    site: Site,
    depth: u32,
) -> Result<Found<Item>, ReadNone> {
    if depth == 0 {
        return Err(ReadNone::NoReading);
    }
    let attrs = attrs_ahead(alloc, at, false)?;
    let vis = vis_ahead(alloc, at)?;
    let kind = read_kind(alloc, at, site, depth - 1)?;
    let keeps = may_have(kind.node.get(), &vis);
    kept_if(
        Found { need: kind.need + 1, node: Item { attrs, vis, kind: kind.node } },
        keeps,
    )
}
/// Parses an item at its site without its attributes and visibility: its head, and then its body,
/// if it has one. What it contains fits in `depth` levels.
#[inline(never)]
fn read_kind(
    alloc: Global,
    at: &mut Ahead<'_>,
    site: Site,
    depth: u32,
) -> Result<Found<Boxed<ItemKind>>, ReadNone> {
    let begun = match read_begun(alloc, at, site, depth) {
        Ok(begun) => begun,
        Err(none) => return Err(none),
    };
    match body_of(&begun.node) {
        Body::None => {
            let nothing = Found { node: (List::new(alloc), List::new(alloc)), need: 0 };
            items_kind(alloc, begun, Ok(nothing))
        }
        Body::Items(inner) => {
            let body = read_body(alloc, at, inner, depth);
            items_kind(alloc, begun, body)
        }
        Body::Block => {
            let body = read_block_if(alloc, at, depth);
            block_kind(alloc, begun, site, body)
        }
        Body::Value => {
            let value = read_value_if(alloc, at, depth);
            value_kind(alloc, begun, site, value)
        }
    }
}
/// Boxes the kind of an item, if it was made.
fn boxed_kind(
    alloc: Global,
    made: Result<Found<ItemKind>, ReadNone>,
) -> Result<Found<Boxed<ItemKind>>, ReadNone> {
    let kind = made?;
    let node = boxed(alloc, kind.node)?;
    Ok(Found { node, need: kind.need })
}
/// Puts an item together with the content of its braces, and boxes it. This function and the next
/// two are functions of their own, so that the caller's frame has no room for these moves while the
/// body is read.
#[inline(never)]
fn items_kind(
    alloc: Global,
    begun: Found<Begun>,
    body: Result<Found<(List<Attr>, List<Item>)>, ReadNone>,
) -> Result<Found<Boxed<ItemKind>>, ReadNone> {
    let (begun, body) = both(begun, body)?;
    let (attrs, items) = body.node;
    boxed_kind(
        alloc,
        Ok(
            Found {
                need: greater(begun.need, body.need),
                node: with_items(begun.node, attrs, items),
            },
        ),
    )
}
/// Puts a function together with its body, if it has one, and boxes it.
#[inline(never)]
fn block_kind(
    alloc: Global,
    begun: Found<Begun>,
    site: Site,
    body: Result<Found<Option<Block>>, ReadNone>,
) -> Result<Found<Boxed<ItemKind>>, ReadNone> {
    let (begun, body) = both(begun, body)?;
    boxed_kind(alloc, with_block(begun, site, body))
}
/// Puts a constant or a static together with its value, if it has one, and boxes it.
#[inline(never)]
fn value_kind(
    alloc: Global,
    begun: Found<Begun>,
    site: Site,
    value: Result<Found<Option<Boxed<Expr>>>, ReadNone>,
) -> Result<Found<Boxed<ItemKind>>, ReadNone> {
    let (begun, value) = both(begun, value)?;
    boxed_kind(alloc, with_value(begun, site, value))
}
/// Parses the body of a function, or the `;` where it has none. What it contains fits in `depth`
/// levels.
#[inline(never)]
fn read_block_if(
    alloc: Global,
    at: &mut Ahead<'_>,
    depth: u32,
) -> Result<Found<Option<Block>>, ReadNone> {
    let rules = BlockRules {
        alloc,
        depth,
        exprs: expr_ahead,
        blocks: block_ahead,
        items: item_ahead,
    };
    rules.fn_body(at)
}
/// Parses the value of a constant or a static, if it has one, and the `;` after it. The value fits
/// in `depth` levels.
#[inline(never)]
fn read_value_if(
    alloc: Global,
    at: &mut Ahead<'_>,
    depth: u32,
) -> Result<Found<Option<Boxed<Expr>>>, ReadNone> {
    let rules = BlockRules {
        alloc,
        depth,
        exprs: expr_ahead,
        blocks: block_ahead,
        items: item_ahead,
    };
    let value = rules.value_if(at)?;
    let keeps = takes_mark(at, b";");
    kept_if(value, keeps)
}
/// Parses inner attributes and items at their site, in braces. The items fit in `depth` levels.
#[inline(never)]
fn read_body(
    alloc: Global,
    at: &mut Ahead<'_>,
    site: Site,
    depth: u32,
) -> Result<Found<(List<Attr>, List<Item>)>, ReadNone> {
    if !takes_opener(at, Delim::Brace) {
        return Err(ReadNone::NoReading);
    }
    let attrs = attrs_ahead(alloc, at, true)?;
    let items = read_items(alloc, at, site, depth)?;
    let keeps = takes_closer(at, Delim::Brace);
    kept_if(Found { need: items.need, node: (attrs, items.node) }, keeps)
}
/// Whether an item of this kind may have this visibility.
fn may_have(kind: &ItemKind, vis: &Vis) -> bool {
    has_head(kind) || is_inherited(vis)
}
/// Whether an item has a head: it is no macro call and no macro definition.
fn has_head(kind: &ItemKind) -> bool {
    !matches!(kind, ItemKind::MacroRules { .. } | ItemKind::Call { .. })
}
/// Whether no visibility is written.
fn is_inherited(vis: &Vis) -> bool {
    matches!(vis, Vis::Inherited)
}
