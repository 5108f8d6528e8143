//! Made by scripts/rust.sh from crates/lay_depth/src/nodes/uses.rt, which is proved: change that.
//!
//! The depth of use trees.
use crate::generated::lay_depth::nodes::levels::deeper;
use crate::generated::lay_node::{UseEnd, UseTree};
/// The depth of a use tree.
pub fn use_depth(tree: &UseTree) -> u32 {
    deeper(end_depth(&tree.end))
}
/// The depth of the end of a use tree.
fn end_depth(end: &UseEnd) -> u32 {
    match end {
        UseEnd::Word { .. } | UseEnd::Glob => 0,
        UseEnd::Group { trees } => trees_depth(trees.as_slice()),
    }
}
/// The greatest depth of the use trees.
fn trees_depth(trees: &[UseTree]) -> u32 {
    let mut most = 0u32;
    for tree in trees {
        most = most.max(use_depth(tree));
    }
    most
}
