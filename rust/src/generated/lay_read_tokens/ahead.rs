//! Made by scripts/rust.sh from crates/lay_read_tokens/src/ahead.rt, which is proved: change that.
//!
//! The cursor that readers use: tokens of a text that was lexed.
use crate::generated::lay_nest::Cursor;
use crate::generated::lay_token::Token;
/// A cursor over lexed tokens. Contracts see it as the list of the tokens ahead, each of which is a
/// piece of its kind.
#[derive(Debug,)]
pub struct Ahead<'a> {
    at: Cursor<'a>,
}
impl<'a> Ahead<'a> {
    /// A reader's cursor at the same place.
    pub fn new(at: Cursor<'a>) -> Ahead<'a> {
        Ahead { at }
    }
    /// The plain cursor at the same place.
    pub fn into_cursor(self) -> Cursor<'a> {
        self.at
    }
    /// A second cursor at the same place.
    pub fn fork(&self) -> Ahead<'a> {
        Ahead { at: self.at.fork() }
    }
    /// The token after `ahead` others, or `None` if there is none.
    pub fn peek(&self, ahead: usize) -> Option<&'a Token> {
        self.at.peek(ahead)
    }
    /// The next token. Its text is UTF-8, and if it is a string literal, it is a whole one.
    pub fn front(&self) -> Option<&'a Token> {
        self.at.peek(0)
    }
    /// Whether no token is ahead.
    pub fn is_end(&self) -> bool {
        self.at.is_end()
    }
    /// Whether the next tokens are this operator, and no longer one.
    pub fn op_is(&self, op: &[u8]) -> bool {
        self.at.op_is(op)
    }
    /// Moves past one token. Past an opener it moves into the group.
    pub fn step(&mut self) {
        self.at.step();
    }
    /// Moves past the next group, and gives a cursor over what is between its delimiters.
    pub fn group(&mut self) -> Ahead<'a> {
        Ahead { at: self.at.group() }
    }
    /// Moves past the next token tree, and gives its tokens: one token, or a group with its
    /// delimiters.
    pub(crate) fn tree(&mut self) -> &'a [Token] {
        self.at.tree()
    }
    /// The tokens ahead.
    pub fn as_slice(&self) -> &'a [Token] {
        self.at.as_slice()
    }
}
