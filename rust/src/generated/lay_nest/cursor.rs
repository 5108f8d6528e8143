//! Made by scripts/rust.sh from crates/lay_nest/src/cursor.rt, which is proved: change that.
//!
//! A cursor over nested tokens.
use crate::generated::lay_nest::operator::is_op;
use crate::generated::lay_token::{Kind, Token};
/// A cursor over tokens. Contracts see it as the list of the tokens ahead. It allocates nothing.
#[derive(Debug,)]
pub struct Cursor<'a> {
    tokens: &'a [Token],
    /// For each token ahead: the number of tokens between it and its partner if it is an opener,
    /// else 0.
    spans: &'a [crate::shims::Span],
}
impl<'a> Cursor<'a> {
    /// A cursor before the first of these tokens; `spans` has the distance of each opener to its
    /// partner.
    pub(crate) fn new(
        tokens: &'a [Token],
        spans: &'a [crate::shims::Span],
    ) -> Cursor<'a> {
        Cursor { tokens, spans }
    }
    /// A second cursor at the same place.
    pub fn fork(&self) -> Cursor<'a> {
        Cursor { tokens: self.tokens, spans: self.spans }
    }
    /// The token after `ahead` others, or `None` if there is none.
    pub fn peek(&self, ahead: usize) -> Option<&'a Token> {
        self.tokens.get(ahead)
    }
    /// Whether no token is ahead.
    pub fn is_end(&self) -> bool {
        self.tokens.is_empty()
    }
    /// Whether the next tokens are this operator: the longest that they begin with (Rust Reference,
    /// "Punctuation").
    pub fn op_is(&self, op: &[u8]) -> bool {
        is_op(self.tokens, op)
    }
    /// Moves past one token. Past an opener it moves into the group, whose closer is then ahead as
    /// any other token.
    pub fn step(&mut self) {
        self.spans[0].pass();
        self.tokens = behind_first(self.tokens);
        self.spans = behind_first(self.spans);
    }
    /// Moves past the next group, and gives a cursor over what is between its delimiters.
    pub fn group(&mut self) -> Cursor<'a> {
        let span = self.spans[0].get();
        let (tokens, tokens_behind) = split_group(self.tokens, span);
        let (spans, spans_behind) = split_group(self.spans, span);
        self.tokens = tokens_behind;
        self.spans = spans_behind;
        Cursor { tokens, spans }
    }
    /// Moves past the next token tree and gives its tokens: one token, or a group with its
    /// delimiters (Rust Reference, "Macros": token trees).
    pub fn tree(&mut self) -> &'a [Token] {
        let (tokens, spans) = (self.as_slice(), self.spans);
        self.pass_tree();
        let count = tokens.len() - self.as_slice().len();
        spans[count - 1].pass();
        &tokens[..count]
    }
    /// Moves past the next token tree.
    fn pass_tree(&mut self) {
        if is_opener(&self.tokens[0]) {
            self.group();
        } else {
            self.step();
        }
    }
    /// The tokens ahead.
    pub fn as_slice(&self) -> &'a [Token] {
        self.tokens
    }
}
/// Whether the token opens a group.
fn is_opener(token: &Token) -> bool {
    matches!(token.kind, Kind::Opener(_))
}
/// The items without the first.
fn behind_first<T>(items: &[T]) -> &[T] {
    &items[1..]
}
/// The items between the delimiters of the leading group, which has this span, and the items after
/// the group.
fn split_group<T>(items: &[T], span: usize) -> (&[T], &[T]) {
    let (inside, behind) = behind_first(items).split_at(span);
    (inside, behind_first(behind))
}
