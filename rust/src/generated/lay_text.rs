//! Made by scripts/rust.sh from crates/lay_text/src/lib.rt, which is proved: change that.
//!
//! Byte strings, lists, and the errors of reading and formatting.
//!
//! Contracts see a [`Text`] as a list of bytes and a [`List`] as a list of items.
pub mod list;
pub mod refusal;
pub mod text;
pub use list::List;
pub use refusal::{FormatError, NoMemory, Refusal};
pub use text::Text;
