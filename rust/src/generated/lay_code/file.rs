//! Made by scripts/rust.sh from crates/lay_code/src/file.rt, which is proved: change that.
//!
//! The node of a source file.
use crate::generated::lay_code::item::Item;
use crate::generated::lay_node::Attr;
use crate::generated::lay_token::{List, Text};
/// A source file (Rust Reference, "Crates and source files").
#[derive(Clone, Debug, PartialEq, Eq)]
pub struct File {
    /// The shebang line, without its line end.
    pub shebang: Option<Text>,
    /// The inner attributes of the file.
    pub attrs: List<Attr>,
    pub items: List<Item>,
}
