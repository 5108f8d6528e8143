//! Made by scripts/rust.sh from crates/lay_cook/src/lib.rt, which is proved: change that.
//!
//! The values of string literals.
//!
//! [`cook`] gives the value of a string literal without suffix: its text with the escapes resolved,
//! or what stands between the quotes of a raw string (Rust Reference, "String literals", "Raw
//! string literals"). It is proved equal to the definition in `lay_piece`.
mod cooking;
mod raw;
mod strings;
pub use cooking::{Cooked, cook};
