//! Made by scripts/rust.sh from crates/lay_build_types/src/lists.rt, which is proved: change that.
//!
//! Lists of built nodes.
use crate::generated::lay_build_types::built::{BuildError, Built, Node};
use crate::generated::lay_build_types::joins::keep;
use crate::generated::lay_text::List;
use crate::shims::Global;
/// The nodes of a list, and the greatest depth that one of them needs.
pub fn nodes<
    N: Node,
>(alloc: Global, list: List<Built<N>>) -> Result<(List<N>, u32), BuildError> {
    let mut left = list.into_vec();
    left.reverse();
    let mut nodes = List::new(alloc);
    let mut need = 0u32;
    while let Some(built) = left.pop() {
        let (node, more) = built.into_parts();
        keep(&mut nodes, node)?;
        need = need.max(more);
    }
    Ok((nodes, need))
}
/// The optional node, and the depth that it needs.
pub fn part_or_none<N: Node>(built: Option<Built<N>>) -> (Option<N>, u32) {
    match built {
        Some(built) => {
            let (node, need) = built.into_parts();
            (Some(node), need)
        }
        None => (None, 0),
    }
}
/// A node that can be turned into a node of type `M`.
pub trait Turns<M> {
    /// Turns the node.
    fn turn(self, alloc: Global) -> Result<M, BuildError>;
}
/// Turns each node of a list.
pub fn turn_all<
    N: Turns<M>,
    M,
>(alloc: Global, list: List<N>) -> Result<List<M>, BuildError> {
    let mut left = list.into_vec();
    left.reverse();
    let mut made = List::new(alloc);
    while let Some(node) = left.pop() {
        keep(&mut made, node.turn(alloc)?)?;
    }
    Ok(made)
}
