//! Made by scripts/rust.sh from crates/lay_cook/src/raw.rt, which is proved: change that.
//!
//! The values of raw string literals.
use crate::generated::lay_token::piece::chars::CharSet;
/// What stands between the quotes of a raw string; `quoted` is the literal after its `r`.
pub fn raw_value(quoted: &str) -> &[u8] {
    let opened = CharSet::Only('#').after(quoted);
    let around = quoted.len() - opened.len() + 1;
    &quoted.as_bytes()[around..quoted.len() - around]
}
