//! Made by scripts/rust.sh from crates/lay_depth/src/nodes/levels.rt, which is proved: change that.
//!
//! One level more, and the greatest depth of several nodes.
/// The depth of a node whose deepest part has this depth: one more, but at most `u32::MAX`.
pub fn deeper(depth: u32) -> u32 {
    depth.saturating_add(1)
}
/// A node whose depth is counted, and that stands in lists.
pub trait Deep {
    /// Its depth.
    fn depth(&self) -> u32;
}
/// The greatest depth of the nodes; 0 if there are none.
pub fn deepest<T: Deep>(nodes: &[T]) -> u32 {
    let mut most = 0u32;
    for node in nodes {
        most = most.max(node.depth());
    }
    most
}
