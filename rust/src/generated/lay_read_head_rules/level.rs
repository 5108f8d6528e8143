//! Made by scripts/rust.sh from crates/lay_read_head_rules/src/level.rt, which is proved: change that.
//!
//! Helpers that the readers of heads share.
use crate::generated::lay_node::Bound;
use crate::generated::lay_read_parts::leads::begins_bound;
use crate::generated::lay_read_tokens::front::{takes_keyword, takes_op};
use crate::generated::lay_read_tokens::{Ahead, Found, ReadNone};
use crate::generated::lay_read_types::bounds_ahead;
use crate::generated::lay_token::List;
use crate::shims::Global;
/// The depth limit of what the elements of a list contain.
#[derive(Clone, Copy,)]
pub struct Level {
    pub alloc: Global,
    pub depth: u32,
}
/// The value, or the error `NoReading` unless `keeps`.
pub fn kept_if<T>(found: T, keeps: bool) -> Result<T, ReadNone> {
    if keeps { Ok(found) } else { Err(ReadNone::NoReading) }
}
/// Moves past the keyword if it comes next, and says whether it did.
pub fn takes_flag(at: &mut Ahead<'_>, word: &[u8]) -> bool {
    takes_keyword(at, word)
}
/// Parses a `:` and bounds, if a `:` comes next; the bounds may be none.
pub fn met_if(
    alloc: Global,
    at: &mut Ahead<'_>,
    depth: u32,
) -> Result<Found<List<Bound>>, ReadNone> {
    if takes_op(at, b":") && begins_bound(at) { bounds_ahead(alloc, at, depth) } else {
        Ok(Found { node: List::new(alloc), need: 0 })
    }
}
