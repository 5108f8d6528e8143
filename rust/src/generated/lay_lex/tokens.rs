//! Made by scripts/rust.sh from crates/lay_lex/src/tokens.rt, which is proved: change that.
//!
//! From pieces to tokens: their texts, and which tokens are joint.
use crate::shims::Vec;
use crate::generated::lay_lex::ends::{
    before_last,
    behind_first,
    has_line_feed,
    without_end,
};
use crate::generated::lay_lex::window::{Stop, Window};
use crate::generated::lay_token::{Kind, List, NoMemory, Text, Token};
use crate::shims::Global;
/// What stands before a place, as far as it decides whether a number there may be a tuple index.
#[derive(Clone, Copy, Debug, PartialEq, Eq,)]
pub enum Before {
    /// Anything but a point, or nothing.
    Other,
    /// A point.
    Point,
    /// A point that is joint with a point before it.
    Points,
}
impl Before {
    /// The state after punctuation; `point` says that it is a point, `touches` that no gap stands
    /// before it.
    pub fn behind(self, point: bool, touches: bool) -> Before {
        if !point { Before::Other } else if touches && self != Before::Other {
            Before::Points
        } else { Before::Point }
    }
}
/// Whether the bytes are a point.
pub fn is_point(bytes: &[u8]) -> bool {
    matches!(bytes, b".")
}
/// Whether the bytes are a comma or a semicolon.
fn is_separator(bytes: &[u8]) -> bool {
    matches!(bytes, b"," | b";")
}
/// The token of a piece. It is not joint.
fn token_of(
    alloc: Global,
    kind: Kind,
    piece: &str,
    at: usize,
) -> Result<Token, NoMemory> {
    let text = Text::from_bytes(alloc, text_of_piece(kind, piece))?;
    Ok(Token { kind, text, joint: false, at, len: piece.len() })
}
/// The text of the token that a piece makes.
#[inline(always)]
pub fn text_of_piece(kind: Kind, piece: &str) -> &[u8] {
    match kind {
        Kind::RawIdent => behind_first(behind_first(piece)).as_bytes(),
        Kind::Doc { block, .. } => doc_text(block, piece),
        _ => piece.as_bytes(),
    }
}
/// The text of documentation, without its marks.
fn doc_text(block: bool, piece: &str) -> &[u8] {
    let text = within(block, piece);
    if has_line_feed(text) { text.as_bytes() } else { without_end(b' ', text) }
}
/// What stands between the marks of documentation.
fn within(block: bool, piece: &str) -> &str {
    let behind = behind_first(behind_first(behind_first(piece)));
    if block { before_last(before_last(behind)) } else { behind }
}
/// Whether a token is joint with the next: both are punctuation, and no gap stands between them.
fn is_joint(mark: bool, next: bool, touches: bool) -> bool {
    touches && next && mark
}
/// Makes the last token joint, if `joint`.
fn join_last(tokens: &mut Vec<Token>, joint: bool) {
    if joint {
        let last = tokens.len() - 1;
        tokens[last].joint = true;
    }
}
/// The tokens that were lexed so far. Whether the last of them is joint depends on the next.
pub struct Tokens {
    read: Vec<Token>,
    before: Before,
    /// Whether the last token may be joint with the next.
    mark: bool,
}
impl Tokens {
    /// No tokens, at the beginning of a text, with memory for `room` of them.
    pub fn new(alloc: Global, room: usize) -> Result<Tokens, NoMemory> {
        Ok(
            Tokens {
                read: Vec::with_capacity(alloc, room)?,
                before: Before::Other,
                mark: false,
            },
        )
    }
    /// Whether a number after the tokens may be a tuple index.
    pub fn is_index_place(&self) -> bool {
        self.before == Before::Point
    }
    /// Appends the token of a piece; `touches` says that no gap stands before it.
    pub fn add(
        &mut self,
        alloc: Global,
        kind: Kind,
        piece: &str,
        at: usize,
        touches: bool,
    ) -> Result<(), NoMemory> {
        let token = token_of(alloc, kind, piece, at)?;
        match kind {
            Kind::Punct => self.push_punct(token, piece.as_bytes(), touches),
            _ => self.push(token),
        }
    }
    /// Appends a token that is no punctuation, and so is joint with nothing.
    fn push(&mut self, token: Token) -> Result<(), NoMemory> {
        self.read.push(token)?;
        self.before = Before::Other;
        self.mark = false;
        Ok(())
    }
    /// Appends punctuation with this text. It is not joint yet.
    fn push_punct(
        &mut self,
        token: Token,
        text: &[u8],
        touches: bool,
    ) -> Result<(), NoMemory> {
        let mark = !is_separator(text);
        let joint = is_joint(self.mark, mark, touches);
        let before = self.before.behind(is_point(text), touches);
        self.read.reserve(1)?;
        join_last(&mut self.read, joint);
        self.read.push_reserved(token);
        self.before = before;
        self.mark = mark;
        Ok(())
    }
    /// The tokens read so far.
    pub fn as_slice(&self) -> &[Token] {
        self.read.as_slice()
    }
    /// A window of all the tokens, which ends at the byte `end` for the reason `stop`.
    pub fn window(self, stop: Stop, end: usize) -> Window {
        let Tokens { read, before: _, mark: _ } = self;
        Window { tokens: List::from_vec(read), stop, end }
    }
}
