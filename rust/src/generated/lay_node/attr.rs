//! Made by scripts/rust.sh from crates/lay_node/src/attr.rt, which is proved: change that.
//!
//! Attributes.
use crate::generated::lay_node::simple_path::SimplePath;
use crate::generated::lay_node::tokens::{Group, Tokens};
use crate::generated::lay_token::Text;
/// An attribute (Rust Reference, "Attributes"). An inner one documents or changes the item that it
/// stands in.
#[derive(Debug, Clone, PartialEq, Eq)]
#[non_exhaustive]
pub enum Attr {
    /// Documentation. It can be spelled as a comment or as `#[doc = "text"]`.
    Doc {
        inner: bool,
        text: Text,
    },
    /// `#[path]`, `#[path(tokens)]` or `#[path = tokens]`
    Meta {
        inner: bool,
        path: MetaPath,
        input: MetaInput,
    },
}
/// The name of an attribute.
#[derive(Debug, Clone, PartialEq, Eq)]
#[non_exhaustive]
pub enum MetaPath {
    /// `a::b`
    Path(SimplePath),
    /// `unsafe`
    Unsafe,
}
/// The input of an attribute.
#[derive(Debug, Clone, PartialEq, Eq)]
#[non_exhaustive]
pub enum MetaInput {
    /// Nothing.
    Bare,
    /// `(a, b = "x")`
    Group(Group),
    /// ` = "x"`, with at least one token
    Value(Tokens),
}
