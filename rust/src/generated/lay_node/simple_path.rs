//! Made by scripts/rust.sh from crates/lay_node/src/simple_path.rt, which is proved: change that.
//!
//! Simple paths.
use crate::generated::lay_node::token::Word;
use crate::generated::lay_token::List;
/// A path without generic arguments (Rust Reference, "Simple paths"), with at least one word.
#[derive(Debug, Clone, PartialEq, Eq)]
pub struct SimplePath {
    /// Whether it begins with `::`.
    pub global: bool,
    pub words: List<Word>,
}
