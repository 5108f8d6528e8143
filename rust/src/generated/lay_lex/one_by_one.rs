//! Made by scripts/rust.sh from crates/lay_lex/src/one_by_one.rt, which is proved: change that.
//!
//! Lexing token by token, without a list of tokens.
//!
//! A [`Cursor`] is a place in a text. [`Cursor::next`] lexes the next token, whose text it borrows,
//! and moves past it. A cursor can be copied to look ahead. Nothing is allocated.
mod cursor;
pub use cursor::{Cursor, Lexeme};
