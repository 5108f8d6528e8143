//! Made by scripts/rust.sh from crates/lay_piece/src/lib.rt, which is proved: change that.
//!
//! The pieces (lexemes) of a text: the kinds of tokens, the keywords, and documentation.
//!
//! The crate defines what a piece of each kind is, what may follow it, and what a gap (white space
//! and plain comments) is (Rust Reference, "Lexical structure"). [`piece_at`] gives exactly the
//! kind and the length that the definitions give to the beginning of a text. [`piece_law`] says
//! that they give at most one, and that no piece begins a gap.
pub mod doc;
pub mod kind;
pub mod piece;
pub mod word;
pub use doc::{DocForm, doc_form};
pub use kind::{Delim, Kind};
pub use piece::{Piece, piece_at};
pub use word::{Class, word_class};
