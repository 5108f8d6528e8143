//! Made by scripts/rust.sh from crates/lay_depth/src/conditions.rt, which is proved: change that.
//!
//! The depth of conditions and their links.
use crate::generated::lay_depth::exprs::expr_depth;
use crate::generated::lay_depth::nodes::pat_depth;
use crate::generated::lay_code::{Condition, Link};
/// The depth of a condition: that of its deepest link.
pub(crate) fn condition_depth(condition: &Condition) -> u32 {
    links_depth(condition.links.as_slice())
}
/// The greatest depth of the links.
fn links_depth(links: &[Link]) -> u32 {
    let mut most = 0u32;
    for link in links {
        most = most.max(link_depth(link));
    }
    most
}
/// The depth of a link.
fn link_depth(link: &Link) -> u32 {
    match link {
        Link::Expr { expr } => expr_depth(expr.get()),
        Link::Let { pat, value } => pat_depth(pat).max(expr_depth(value.get())),
    }
}
