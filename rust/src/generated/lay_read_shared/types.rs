//! Made by scripts/rust.sh from crates/lay_read_shared/src/types.rt, which is proved: change that.
//!
//! Parsing of optional types.
use crate::generated::lay_node::{Ty, TypePlace};
use crate::generated::lay_read_tokens::front::takes_op;
use crate::generated::lay_read_tokens::{Ahead, Found, ReadNone};
use crate::generated::lay_read_types::type_ahead;
use crate::shims::Global;
/// Parses an operator of one character and a type, if the operator comes next.
pub fn type_if(
    alloc: Global,
    at: &mut Ahead<'_>,
    op: &[u8],
    depth: u32,
) -> Result<Found<Option<Ty>>, ReadNone> {
    if !takes_op(at, op) {
        return Ok(Found { node: None, need: 0 });
    }
    let ty = type_ahead(alloc, at, TypePlace::Bounds, depth)?;
    Ok(Found { node: Some(ty.node), need: ty.need })
}
