//! Made by scripts/rust.sh from crates/lay_out_code/src/conditions.rt, which is proved: change that.
//!
//! The layout of conditions and their links.
use crate::generated::lay_out_code::exprs::add_expr;
use crate::generated::lay_code::{Condition, Link};
use crate::generated::lay_out_exprs::blocks::{
    add_condition_lead,
    add_let_lead,
    add_link_lead,
};
use crate::generated::lay_out_types::lists::{add_begin, add_end};
use crate::generated::lay_paren_defs::Enclose;
use crate::generated::lay_stream::Emit;
/// Emits the word before a condition, and the condition, in a group of their own.
pub fn add_condition<
    E: Emit,
    X: Enclose,
>(
    out: &mut E,
    before: Result<(), E::Fault>,
    word: &[u8],
    condition: &Condition,
) -> Result<(), E::Fault> {
    let lead = add_condition_lead(out, before, word);
    let links = add_links::<E, X>(out, lead, condition.links.as_slice());
    add_end(out, links)
}
/// Emits the links of a condition. Two or more are in a group of their own.
fn add_links<
    E: Emit,
    X: Enclose,
>(out: &mut E, before: Result<(), E::Fault>, links: &[Link]) -> Result<(), E::Fault> {
    match links {
        [] => before,
        [link] => add_link::<E, X>(out, before, link),
        [_, _, ..] => {
            let group = add_begin(out, before);
            let row = add_link_row::<E, X>(out, group, links);
            add_end(out, row)
        }
    }
}
/// Emits links, with `&&` between them.
fn add_link_row<
    E: Emit,
    X: Enclose,
>(out: &mut E, before: Result<(), E::Fault>, links: &[Link]) -> Result<(), E::Fault> {
    let mut done = before;
    for (index, link) in links.iter().enumerate() {
        done = add_link_lead(out, done, index == 0);
        done = add_link::<E, X>(out, done, link);
    }
    done
}
/// Emits a link.
fn add_link<
    E: Emit,
    X: Enclose,
>(out: &mut E, before: Result<(), E::Fault>, link: &Link) -> Result<(), E::Fault> {
    match link {
        Link::Expr { expr } => add_expr::<E, X>(out, before, false, expr.get()),
        Link::Let { pat, value } => {
            let lead = add_let_lead(out, before, pat);
            add_expr::<E, X>(out, lead, false, value.get())
        }
    }
}
