//! Made by scripts/rust.sh from crates/lay_build_types/src/built.rt, which is proved: change that.
//!
//! Nodes that were built, and the errors of building.
/// The greatest depth of what a file holds.
const DEPTH: u32 = 256;
/// Why building failed. The arguments of the call are dropped.
#[derive(Clone, Copy, Debug, PartialEq, Eq)]
pub enum BuildError {
    /// The text is not an identifier, or it is `_`, `crate`, `self`, `super` or `Self`.
    BadName,
    /// The text is not UTF-8.
    BadText,
    /// The node is deeper than a file may be.
    TooDeep,
    /// Memory could not be allocated.
    NoMemory,
}
/// A kind of node that can be built.
pub trait Node {}
/// A built node. Contracts see the node only; the depth that it needs is kept beside it.
#[derive(Clone, Debug, PartialEq, Eq)]
pub struct Built<N: Node> {
    node: N,
    need: u32,
}
impl<N: Node> Built<N> {
    /// The node.
    pub fn node(&self) -> &N {
        &self.node
    }
    /// Takes the node out, with the depth that it needs.
    pub fn into_parts(self) -> (N, u32) {
        let Built { node, need } = self;
        (node, need)
    }
}
/// The node as a built one, unless it is too deep; `made` is the node with the depth that it needs.
pub fn kept<
    N: Node,
>(made: Result<(N, u32), BuildError>) -> Result<Built<N>, BuildError> {
    let (node, need) = made?;
    if need > DEPTH {
        return Err(BuildError::TooDeep);
    }
    Ok(Built { node, need })
}
