//! Made by scripts/rust.sh from crates/lay_layout/src/lib.rt, which is proved: change that.
//!
//! Layout tokens, and the text that they stand for.
//!
//! The crate defines documents (nested groups, texts and breaks), their flattening to tokens, and
//! the text that Oppen's algorithm gives to them ("Prettyprinting", TOPLAS 2(4), 1980).
//! [`layout_law`] says that laying out token by token and laying out a nested document give the
//! same text. Every printer is proved against these definitions. It takes from here the line width,
//! the widths of breaks ([`widths`]), and how a frame lays out a break or a group ([`frames`]).
pub mod frames;
pub mod layout;
pub mod widths;
pub use frames::{GREATEST_INDENT, OUTSIDE, asks_at_break, entered, shifted};
pub use layout::{Break, Frame, Mark, Tok};
pub use widths::{GREATEST_BLANKS, GREATEST_WIDTH, LEAST_SPACE, MARGIN, width_of};
