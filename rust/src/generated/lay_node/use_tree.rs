//! Made by scripts/rust.sh from crates/lay_node/src/use_tree.rt, which is proved: change that.
//!
//! Use trees, the argument of `use`.
use crate::generated::lay_node::token::{GivenName, Word};
use crate::generated::lay_token::List;
/// A use tree (Rust Reference, "Use declarations"). A tree in a group counts one level of depth
/// more.
#[derive(Debug, Clone, PartialEq, Eq)]
pub struct UseTree {
    /// Whether it begins with `::`.
    pub global: bool,
    /// The words before the end, each of which has a `::` after it.
    pub path: List<Word>,
    pub end: UseEnd,
}
/// The end of a use tree, after its path.
#[derive(Debug, Clone, PartialEq, Eq)]
#[non_exhaustive]
pub enum UseEnd {
    /// `a`, or `a as b`
    Word {
        word: Word,
        rename: Option<GivenName>,
    },
    /// `*`
    Glob,
    /// `{a, b}`
    Group {
        trees: List<UseTree>,
    },
}
