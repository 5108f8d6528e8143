//! Made by scripts/rust.sh from crates/lay_node/src/vis.rt, which is proved: change that.
//!
//! Visibilities.
use crate::generated::lay_node::simple_path::SimplePath;
/// The visibility of an item or a field (Rust Reference, "Visibility and privacy").
#[derive(Debug, Clone, PartialEq, Eq)]
#[non_exhaustive]
pub enum Vis {
    /// None written: private, or as visible as the trait or the enumeration around it.
    Inherited,
    /// `pub`
    Public,
    /// `pub(crate)`
    Crate,
    /// `pub(self)`
    Own,
    /// `pub(super)`
    Super,
    /// `pub(in a::b)`
    In(SimplePath),
}
