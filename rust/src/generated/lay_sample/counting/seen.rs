//! Made by scripts/rust.sh from crates/lay_sample/src/counting/seen.rt, which is proved: change that.
//!
//! A text that only proofs see.
/// The bytes that were written so far. They are ghost data: the struct has no bytes in memory.
pub(crate) struct Seen {}
impl Seen {
    /// No bytes.
    pub(crate) fn new() -> Seen {
        Seen {}
    }
    /// The bytes, and then this piece.
    pub(crate) fn and(&self, piece: &[u8]) -> Seen {
        Seen {}
    }
}
