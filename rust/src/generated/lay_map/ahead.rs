//! Made by scripts/rust.sh from crates/lay_map/src/ahead.rt, which is proved: change that.
//!
//! A cursor over tokens, of a list or of a text.
use crate::generated::lay_lex::one_by_one::{Cursor, Lexeme};
use crate::generated::lay_token::Token;
/// Gives tokens one by one. It is copied to look ahead.
#[derive(Clone, Copy, Debug,)]
pub(crate) enum Ahead<'a> {
    /// The tokens of a list.
    Tokens(&'a [Token]),
    /// The tokens that a text lexes to, from a byte offset on.
    Text(Cursor<'a>),
}
impl<'a> Ahead<'a> {
    /// Gives the next token and moves past it; `None` if there is none.
    #[inline(always)]
    pub(crate) fn next(&mut self) -> Option<Lexeme<'a>> {
        match *self {
            Ahead::Tokens(tokens) => {
                let (token, behind) = tokens.split_first()?;
                *self = Ahead::Tokens(behind);
                Some(lent(token))
            }
            Ahead::Text(cursor) => {
                let mut cursor = cursor;
                let lexeme = cursor.next()?;
                *self = Ahead::Text(cursor);
                Some(lexeme)
            }
        }
    }
}
/// The token, with its text borrowed.
fn lent(token: &Token) -> Lexeme<'_> {
    Lexeme {
        kind: token.kind,
        text: token.text.as_bytes(),
        at: token.at,
        len: token.len,
    }
}
