//! Made by scripts/rust.sh from crates/lay_build_exprs/src/keeping.rt, which is proved: change that.
//!
//! The last step of building a node.
use crate::generated::lay_build_types::{BuildError, Built, Node, kept};
/// The node as a built one, unless it is too deep or making it failed. The node is lent to `make`
/// and owned here only, so functions in between needn't drop it.
pub(crate) fn kept_with<
    N: Node,
>(node: N, need: Result<u32, BuildError>) -> Result<Built<N>, BuildError> {
    match need {
        Ok(need) => kept(Ok((node, need))),
        Err(why) => Err(why),
    }
}
