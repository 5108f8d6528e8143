//! Made by scripts/rust.sh from crates/lay_items/src/lib.rt, which is proved: change that.
//!
//! Edits of the items of a file, which keep the text of each item.
//!
//! An [`Items`] keeps a file, the text of its beginning, and the text of each item. An edit parses
//! a text as one item, lays it out, and puts both in their places. If the text has a syntax error
//! or is anything but one item, nothing changes. [`refused_at`] gives the place of a syntax error.
//!
//! `Keeps` defines what an [`Items`] keeps: the texts are those of the file as it is now, and one
//! after another they are the text of the file. It holds of every value, so after every sequence of
//! calls.
pub mod alone;
pub mod edits;
mod lists;
mod printing;
mod reading;
pub use edits::Items;
pub use crate::generated::lay_files::refused_at;
pub use reading::{EditError, Shape};
