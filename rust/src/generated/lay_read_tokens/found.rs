//! Made by scripts/rust.sh from crates/lay_read_tokens/src/found.rt, which is proved: change that.
//!
//! The result of a reader of nodes that can be nested.
/// A node, and the least depth at which its tokens spell it.
#[derive(Debug,)]
pub struct Found<T> {
    pub node: T,
    pub need: u32,
}
/// The greater of two depths.
pub fn greater(need: u32, other: u32) -> u32 {
    if need < other { other } else { need }
}
