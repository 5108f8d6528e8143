//! Made by scripts/rust.sh from crates/lay_map/src/tokens.rt, which is proved: change that.
//!
//! Facts about single tokens.
use crate::generated::lay_map::ahead::Ahead;
use crate::generated::lay_map::unit::Unit;
use crate::generated::lay_map::walk::Sought;
use crate::generated::lay_lex::one_by_one::Lexeme;
use crate::generated::lay_text::NoMemory;
use crate::generated::lay_token::{Delim, Kind};
/// Whether a token of this kind is an opening brace.
pub(crate) fn opens(kind: Kind) -> bool {
    matches!(kind, Kind::Opener(Delim::Brace))
}
/// Whether a token of this kind is a closing brace.
pub(crate) fn closes(kind: Kind) -> bool {
    matches!(kind, Kind::Closer(Delim::Brace))
}
/// Whether the token is a `;`.
pub(crate) fn is_semicolon(lexeme: &Lexeme<'_>) -> bool {
    match lexeme.kind {
        Kind::Punct => b";".as_slice() == lexeme.text,
        _ => false,
    }
}
/// Whether the token matches what is searched, as far as its first byte tells.
#[inline(always)]
pub(crate) fn says(sought: Sought, lexeme: &Lexeme<'_>) -> bool {
    match sought {
        Sought::First(byte) => begins(lexeme.text, byte),
        Sought::Docs => is_doc(lexeme.kind) || begins(lexeme.text, b'#'),
    }
}
/// Whether a token of this kind is documentation.
fn is_doc(kind: Kind) -> bool {
    matches!(kind, Kind::Doc { .. })
}
/// Whether a text begins with a byte.
fn begins(text: &[u8], byte: u8) -> bool {
    match text {
        [first, ..] => *first == byte,
        [] => false,
    }
}
/// How many more tokens documentation has that begins with a token of this kind: `#[doc = "text"]`
/// has six tokens, and `#![doc = "text"]` seven.
pub(crate) fn more_doc(inner: bool, kind: Kind) -> usize {
    if is_doc(kind) { 0 } else if inner { 6 } else { 5 }
}
/// Moves past `more` tokens, or as many as there are. Gives the last of them, or `first` if there
/// are none.
#[inline(always)]
pub(crate) fn last_of<
    'a,
>(first: Lexeme<'a>, ahead: &mut Ahead<'a>, more: usize) -> Lexeme<'a> {
    let mut last = first;
    let mut left = more;
    while left > 0 {
        match ahead.next() {
            Some(lexeme) => {
                last = lexeme;
                left -= 1;
            }
            None => return last,
        }
    }
    last
}
/// The unit that reaches from a token to another.
#[inline(always)]
pub(crate) fn unit_from(first: &Lexeme<'_>, last: &Lexeme<'_>) -> Unit {
    Unit { at: first.at, len: last.at.saturating_add(last.len).saturating_sub(first.at) }
}
