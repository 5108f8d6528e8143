//! Made by scripts/rust.sh from crates/lay_token/src/lib.rt, which is proved: change that.
//!
//! Tokens with their places, and all names of the base in one crate: texts, lists, layouts and
//! pieces.
//!
//! The crate defines which list of tokens a text lexes to (Rust Reference, "Lexical structure").
//! [`tokens_law`] says that there is at most one. Everything else here is exported again from the
//! crates below.
pub mod place;
pub mod token;
pub use crate::generated::lay_layout::{Break, Frame, Mark, Tok, layout};
pub use crate::generated::lay_piece::{
    Class,
    DocForm,
    Piece,
    doc,
    doc_form,
    piece,
    piece_at,
    word,
    word_class,
};
pub use crate::generated::lay_text::{
    FormatError,
    List,
    NoMemory,
    Refusal,
    Text,
    list,
    refusal,
    text,
};
pub use place::{Place2, place_of};
pub use token::{Delim, Kind, Token};
