//! Made by scripts/rust.sh from crates/lay_nest/src/lib.rt, which is proved: change that.
//!
//! Balanced delimiters, and a cursor over the tokens.
//!
//! [`nest`] accepts tokens whose delimiters are balanced. In one pass, with no limit to nesting, it
//! finds the partner of each delimiter. A [`Cursor`] walks over the tokens, steps past a whole
//! group at once, and allocates nothing; contracts see it as the list of the tokens ahead.
//! [`nesting_law`] says that the refused place and the content of a group are unique.
mod cursor;
mod law;
mod nesting;
mod operator;
mod partners;
pub use cursor::Cursor;
pub use nesting::{Nested, nest};
