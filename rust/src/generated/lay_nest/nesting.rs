//! Made by scripts/rust.sh from crates/lay_nest/src/nesting.rt, which is proved: change that.
//!
//! Balanced tokens, with the partner of each delimiter.
use crate::generated::lay_nest::cursor::Cursor;
use crate::generated::lay_nest::partners::spans_of;
use crate::generated::lay_token::{FormatError, List, Token};
use crate::shims::Global;
/// Tokens whose delimiters are balanced, with the partner of each. Contracts see the tokens only.
#[derive(Debug,)]
pub struct Nested {
    tokens: List<Token>,
    /// For each token: the number of tokens between it and its partner if it is an opener, else 0.
    spans: List<crate::shims::Span>,
}
impl Nested {
    /// The token after the furthest one that a cursor passed, or none where that was the
    /// last.
    pub fn furthest(&self) -> Option<&Token> {
        let passed = self.spans.as_slice().iter().rposition(|span| span.is_passed());
        self.tokens.as_slice().get(passed.map_or(0, |last| last + 1))
    }
    /// A cursor before the first token.
    pub fn cursor(&self) -> Cursor<'_> {
        Cursor::new(self.tokens.as_slice(), self.spans.as_slice())
    }
}
/// Finds the partner of each delimiter (Rust Reference, "Macros": token trees).
///
/// The only syntax error is `Unbalanced`, at the first closer that isn't the partner of the last
/// opener that is open; without such a closer, at the last opener that is never closed.
pub fn nest(alloc: Global, tokens: List<Token>) -> Result<Nested, FormatError> {
    match spans_of(alloc, tokens.as_slice()) {
        Ok(spans) => Ok(Nested { tokens, spans }),
        Err(error) => Err(error),
    }
}
