//! Made by scripts/rust.sh from crates/lay_lex/src/one_by_one/cursor.rt, which is proved: change that.
//!
//! A cursor that lexes as it moves.
use crate::generated::lay_lex::{Before, after_gap, cut, is_point, text_of_piece};
use crate::generated::lay_token::{Kind, piece_at};
/// A token that borrows its text. It doesn't say whether it is joint with the next one.
#[derive(Clone, Copy, Debug,)]
pub struct Lexeme<'a> {
    pub kind: Kind,
    /// The text of the token: a raw identifier without its `r#`, and documentation without its
    /// marks, of which a line has no blanks at its end either.
    pub text: &'a [u8],
    /// Where the piece begins: a byte offset in the text.
    pub at: usize,
    /// The length of the piece in bytes.
    pub len: usize,
}
/// A place in a text. What is ahead is lexed token by token.
#[derive(Clone, Copy, Debug,)]
pub struct Cursor<'a> {
    ahead: &'a str,
    /// The length of the whole text in bytes.
    end: usize,
    before: Before,
}
impl<'a> Cursor<'a> {
    /// A cursor at the byte `start` of the text.
    pub fn new(text: &'a str, start: usize) -> Cursor<'a> {
        Cursor { ahead: &text[start..], end: text.len(), before: Before::Other }
    }
    /// Gives the next token and moves past it; `None` at the end of the text, or if no token begins
    /// there.
    #[inline(always)]
    pub fn next(&mut self) -> Option<Lexeme<'a>> {
        let rest = after_gap(self.ahead)?;
        let found = piece_at(rest, is_index_place(self.before))?;
        let (piece, behind) = cut(rest, found.len);
        let touches = rest.len() == self.ahead.len();
        let lexeme = Lexeme {
            kind: found.kind,
            text: text_of_piece(found.kind, piece),
            at: self.end - rest.len(),
            len: found.len,
        };
        self.before = behind_piece(self.before, found.kind, piece, touches);
        self.ahead = behind;
        Some(lexeme)
    }
}
/// Whether a number here may be a tuple index.
#[inline]
fn is_index_place(before: Before) -> bool {
    before == Before::Point
}
/// What precedes the place after this piece; `touches` says that no gap stands before the piece.
#[inline]
fn behind_piece(before: Before, kind: Kind, piece: &str, touches: bool) -> Before {
    match kind {
        Kind::Punct => before.behind(is_point(piece.as_bytes()), touches),
        _ => Before::Other,
    }
}
