//! Made by scripts/rust.sh from crates/lay_ring/src/entry.rt, which is proved: change that.
//!
//! A waiting layout token and its size.
use crate::generated::lay_layout::Tok;
/// The width of an entry up to the next place where a line may be broken, as far as it is known.
#[derive(Clone, Copy, Debug, PartialEq, Eq,)]
pub enum Size {
    /// Nothing yet.
    Unknown,
    /// This many columns.
    Known(i64),
    /// More columns than fit.
    Forced,
}
/// A waiting token and its size.
#[derive(Debug,)]
pub struct Entry {
    pub tok: Tok,
    pub size: Size,
}
