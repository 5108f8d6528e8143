//! Made by scripts/rust.sh from crates/lay_read_shared/src/boxes.rt, which is proved: change that.
//!
//! Boxing of nodes.
use crate::generated::lay_node::Boxed;
use crate::generated::lay_read_tokens::stop::{boxed, keep, room_for};
use crate::generated::lay_read_tokens::{Found, ReadNone};
use crate::generated::lay_token::List;
use crate::shims::Global;
/// Boxes the node, and keeps the depth that it needs.
pub fn boxed_found<
    T,
>(alloc: Global, node: T, need: u32) -> Result<Found<Boxed<T>>, ReadNone> {
    let node = boxed(alloc, node)?;
    Ok(Found { node, need })
}
/// Takes the nodes out of their boxes, into a list with no spare capacity.
pub fn unboxed<T>(alloc: Global, boxes: List<Boxed<T>>) -> Result<List<T>, ReadNone> {
    let boxes = boxes.into_vec();
    let mut nodes = room_for(alloc, boxes.len())?;
    for node in boxes {
        keep(&mut nodes, node.into_inner())?;
    }
    Ok(nodes)
}
