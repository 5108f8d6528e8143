//! Made by scripts/rust.sh from crates/lay_paren/src/conditions.rt, which is proved: change that.
//!
//! Parentheses in conditions.
use crate::generated::lay_paren::exprs::place_expr;
use crate::generated::lay_paren::slots::Slot;
use crate::generated::lay_code::{Condition, Link, Place};
use crate::generated::lay_ops::places::{link_place, plain};
use crate::generated::lay_token::{List, NoMemory};
use crate::shims::Global;
/// Puts the parentheses that the expressions in a condition lack.
pub(crate) fn place_condition(
    alloc: Global,
    condition: &mut Condition,
) -> Result<(), NoMemory> {
    place_links(alloc, &mut condition.links)
}
/// Puts the missing parentheses in links.
fn place_links(alloc: Global, links: &mut List<Link>) -> Result<(), NoMemory> {
    place_each_link(alloc, links.as_mut_slice())
}
/// Puts the missing parentheses in each of the links.
fn place_each_link(alloc: Global, links: &mut [Link]) -> Result<(), NoMemory> {
    let count = links.len();
    let alone = count == 1;
    for (index, link) in links.iter_mut().enumerate() {
        place_link(alloc, link, alone, index + 1 < count)?;
    }
    Ok(())
}
/// Puts the missing parentheses in a link; `alone` says that it is the whole condition, `more` that
/// another link follows.
fn place_link(
    alloc: Global,
    link: &mut Link,
    alone: bool,
    more: bool,
) -> Result<(), NoMemory> {
    match link {
        Link::Expr { expr } => {
            place_expr(alloc, expr.get_mut(), whole_place(alone, more), Slot::Any)
        }
        Link::Let { value, .. } => {
            place_expr(alloc, value.get_mut(), link_place(more), Slot::Any)
        }
    }
}
/// The place of a link that is an expression; `alone` says that it is the whole condition, `more`
/// that another link follows.
fn whole_place(alone: bool, more: bool) -> Place {
    if alone { plain(0, true) } else { link_place(more) }
}
