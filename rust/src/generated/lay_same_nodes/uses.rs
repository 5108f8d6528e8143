//! Made by scripts/rust.sh from crates/lay_same_nodes/src/uses.rt, which is proved: change that.
//!
//! Equality of use trees.
use crate::generated::lay_same_nodes::lists::Same;
use crate::generated::lay_node::{UseEnd, UseTree};
impl Same for UseTree {
    fn same(&self, other: &UseTree) -> bool {
        self.global == other.global && self.path.same(&other.path)
            && self.end.same(&other.end)
    }
}
impl Same for UseEnd {
    fn same(&self, other: &UseEnd) -> bool {
        match self {
            UseEnd::Word { word, rename } => {
                match other {
                    UseEnd::Word { word: other_word, rename: other_rename } => {
                        word.same(other_word) && rename.same(other_rename)
                    }
                    _ => false,
                }
            }
            UseEnd::Glob => matches!(other, UseEnd::Glob),
            UseEnd::Group { trees } => {
                match other {
                    UseEnd::Group { trees: given } => {
                        same_trees(trees.as_slice(), given.as_slice())
                    }
                    _ => false,
                }
            }
        }
    }
}
/// Whether two lists of use trees are equal.
fn same_trees(trees: &[UseTree], others: &[UseTree]) -> bool {
    if trees.len() != others.len() {
        return false;
    }
    for (tree, other) in trees.iter().zip(others) {
        if !tree.same(other) {
            return false;
        }
    }
    true
}
