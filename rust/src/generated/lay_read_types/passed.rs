//! Made by scripts/rust.sh from crates/lay_read_types/src/passed.rt, which is proved: change that.
//!
//! Simple paths that are skipped, so that nothing is allocated for them.
use crate::generated::lay_read_tokens::Ahead;
use crate::generated::lay_read_tokens::front::{
    is_at_colons,
    pass,
    pass_two,
    takes_colons,
};
use crate::generated::lay_token::word::{Class, word_class};
use crate::generated::lay_token::{Kind, Token};
/// Moves past a simple path, if one comes next, and says whether it did. If it didn't, the cursor
/// may be anywhere.
pub fn takes_simple_path(at: &mut Ahead<'_>) -> bool {
    takes_colons(at);
    takes_word(at) && takes_further_words(at)
}
/// Moves past the words of a simple path after its first, each with the `::` before it.
fn takes_further_words(at: &mut Ahead<'_>) -> bool {
    while is_at_colons(at) {
        if !takes_further_word(at) {
            return false;
        }
    }
    true
}
/// Moves past a `::` and a word.
fn takes_further_word(at: &mut Ahead<'_>) -> bool {
    pass_two(at);
    takes_word(at)
}
/// Moves past a word of a path.
fn takes_word(at: &mut Ahead<'_>) -> bool {
    if is_at_word(at) {
        pass(at);
        true
    } else { false }
}
/// Whether a word of a path comes next.
fn is_at_word(at: &Ahead<'_>) -> bool {
    match at.peek(0) {
        Some(token) => is_word(token),
        None => false,
    }
}
/// Whether the token is a word of a path.
fn is_word(token: &Token) -> bool {
    match token.kind {
        Kind::Ident => matches!(
            word_class(token.text.as_bytes()), Class::Plain | Class::PathWord
        ),
        Kind::RawIdent => true,
        _ => false,
    }
}
