//! Made by scripts/rust.sh from crates/lay_read_shared/src/lib.rt, which is proved: change that.
//!
//! What the readers of heads, blocks and expressions share, so that they don't depend on each
//! other: the loop over consecutive parts, boxing, and optional types.
//!
//! The lemmas here say that after whatever is read, at any depth limit, the rest of the tokens is
//! ahead, and that a node has at least one token. So every loop of those readers ends.
pub mod alone;
pub mod boxes;
pub mod loops;
pub mod types;
