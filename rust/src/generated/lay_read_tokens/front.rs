//! Made by scripts/rust.sh from crates/lay_read_tokens/src/front.rt, which is proved: change that.
//!
//! Lookahead: tests of the next tokens, and moves past them.
use crate::generated::lay_read_tokens::ahead::Ahead;
use crate::generated::lay_token::{Delim, Kind, Token};
/// Whether the token is this keyword.
#[inline]
pub fn is_keyword(token: &Token, word: &[u8]) -> bool {
    matches!(token.kind, Kind::Ident) && token.text.as_bytes() == word
}
/// Whether the token is punctuation with this character.
fn is_mark(token: &Token, character: &[u8]) -> bool {
    matches!(token.kind, Kind::Punct) && token.text.as_bytes() == character
}
/// Whether two delimiters are the same.
fn is_same(delim: Delim, other: Delim) -> bool {
    match delim {
        Delim::Paren => matches!(other, Delim::Paren),
        Delim::Bracket => matches!(other, Delim::Bracket),
        Delim::Brace => matches!(other, Delim::Brace),
    }
}
/// Whether the token opens a group with this delimiter.
fn opens(token: &Token, delim: Delim) -> bool {
    match token.kind {
        Kind::Opener(found) => is_same(delim, found),
        _ => false,
    }
}
/// Whether the token closes a group with this delimiter.
fn closes(token: &Token, delim: Delim) -> bool {
    match token.kind {
        Kind::Closer(found) => is_same(delim, found),
        _ => false,
    }
}
/// Moves past the next token, if there is one.
pub fn pass(at: &mut Ahead<'_>) {
    if !at.is_end() {
        at.step();
    }
}
/// Moves past the next token, if `found`.
fn pass_if(at: &mut Ahead<'_>, found: bool) {
    if found {
        pass(at);
    }
}
/// Whether this keyword comes next.
pub fn is_at_keyword(at: &Ahead<'_>, word: &[u8]) -> bool {
    match at.peek(0) {
        Some(token) => is_keyword(token, word),
        None => false,
    }
}
/// Moves past this keyword if it comes next, and says whether it did.
pub fn takes_keyword(at: &mut Ahead<'_>, word: &[u8]) -> bool {
    let found = is_at_keyword(at, word);
    pass_if(at, found);
    found
}
/// Whether punctuation with this character comes next.
pub fn is_at_mark(at: &Ahead<'_>, character: &[u8]) -> bool {
    match at.peek(0) {
        Some(token) => is_mark(token, character),
        None => false,
    }
}
/// Moves past punctuation with this character if it comes next, and says whether it did.
pub fn takes_mark(at: &mut Ahead<'_>, character: &[u8]) -> bool {
    let found = is_at_mark(at, character);
    pass_if(at, found);
    found
}
/// Whether an opener comes next.
pub(crate) fn is_at_opener(at: &Ahead<'_>) -> bool {
    match at.peek(0) {
        Some(token) => matches!(token.kind, Kind::Opener(_)),
        None => false,
    }
}
/// Whether an opener of this delimiter comes next.
pub fn is_at_opened(at: &Ahead<'_>, delim: Delim) -> bool {
    match at.peek(0) {
        Some(token) => opens(token, delim),
        None => false,
    }
}
/// Moves past an opener of this delimiter if it comes next, and says whether it did.
pub fn takes_opener(at: &mut Ahead<'_>, delim: Delim) -> bool {
    let found = is_at_opened(at, delim);
    pass_if(at, found);
    found
}
/// Whether a closer of this delimiter comes next.
pub fn is_at_closer(at: &Ahead<'_>, delim: Delim) -> bool {
    match at.peek(0) {
        Some(token) => closes(token, delim),
        None => false,
    }
}
/// Moves past a closer of this delimiter if it comes next, and says whether it did.
pub fn takes_closer(at: &mut Ahead<'_>, delim: Delim) -> bool {
    let found = is_at_closer(at, delim);
    pass_if(at, found);
    found
}
/// Moves past a `_` if it comes next, and says whether it did.
pub fn takes_underscore(at: &mut Ahead<'_>) -> bool {
    let found = match at.peek(0) {
        Some(token) => matches!(token.kind, Kind::Underscore),
        None => false,
    };
    pass_if(at, found);
    found
}
/// Moves past this operator of one character if it comes next, and says whether it did.
pub fn takes_op(at: &mut Ahead<'_>, op: &[u8]) -> bool {
    let found = at.op_is(op);
    if found {
        pass(at);
    }
    found
}
/// Moves past two tokens, or as many as there are.
pub fn pass_two(at: &mut Ahead<'_>) {
    pass(at);
    pass(at);
}
/// Whether a `::` comes next.
pub fn is_at_colons(at: &Ahead<'_>) -> bool {
    at.op_is(b"::")
}
/// Moves past a `::` if it comes next, and says whether it did.
pub fn takes_colons(at: &mut Ahead<'_>) -> bool {
    let found = is_at_colons(at);
    if found {
        pass_two(at);
    }
    found
}
/// Moves past a `,` after an element of a list. Without a `,` it says whether the closer of the
/// list comes next.
pub fn takes_element_end(at: &mut Ahead<'_>, delim: Delim) -> bool {
    takes_mark(at, b",") || is_at_closer(at, delim)
}
/// Whether another item may follow: a token is left, and it is no `}`.
pub fn has_items(at: &Ahead<'_>) -> bool {
    match at.peek(0) {
        Some(token) => !closes(token, Delim::Brace),
        None => false,
    }
}
