//! Made by scripts/rust.sh from crates/lay_read_parts/src/leads.rt, which is proved: change that.
//!
//! Lookahead: what kind of node the next tokens begin.
use crate::generated::lay_read_tokens::Ahead;
use crate::generated::lay_read_tokens::front::{
    is_at_closer,
    is_at_keyword,
    is_at_mark,
    is_at_opened,
    takes_colons,
};
use crate::generated::lay_token::word::{Class, word_class};
use crate::generated::lay_token::{Delim, Kind, Token};
/// The tokens that can begin a type.
#[derive(Clone, Copy,)]
pub enum Lead {
    Path,
    Paren,
    Never,
    Infer,
    Pointer,
    Reference,
    Bracket,
    Impl,
    Dyn,
    Func,
}
/// How a type begins with the next tokens, if one does.
pub fn lead_at(at: &Ahead<'_>) -> Option<Lead> {
    match at.peek(0) {
        Some(token) => {
            match token.kind {
                Kind::Ident => lead_of_word(token.text.as_bytes()),
                Kind::RawIdent => Some(Lead::Path),
                Kind::Underscore => Some(Lead::Infer),
                Kind::Punct => lead_of_punct(token.text.as_bytes(), at),
                Kind::Opener(Delim::Paren) => Some(Lead::Paren),
                Kind::Opener(Delim::Bracket) => Some(Lead::Bracket),
                _ => None,
            }
        }
        None => None,
    }
}
/// How a type begins with this word, if one does.
fn lead_of_word(word: &[u8]) -> Option<Lead> {
    if matches!(word_class(word), Class::Plain | Class::PathWord) {
        Some(Lead::Path)
    } else if word == b"impl".as_slice() {
        Some(Lead::Impl)
    } else if word == b"dyn".as_slice() {
        Some(Lead::Dyn)
    } else if word == b"fn".as_slice() || word == b"unsafe".as_slice()
        || word == b"extern".as_slice() || word == b"for".as_slice() {
        Some(Lead::Func)
    } else { None }
}
/// How a type begins with this punctuation, if one does.
fn lead_of_punct(character: &[u8], at: &Ahead<'_>) -> Option<Lead> {
    if character == b"!".as_slice() {
        Some(Lead::Never)
    } else if character == b"*".as_slice() {
        Some(Lead::Pointer)
    } else if character == b"&".as_slice() {
        Some(Lead::Reference)
    } else if character == b"<".as_slice() || at.op_is(b"::") { Some(Lead::Path) } else {
        None
    }
}
/// Whether a lifetime comes next.
pub fn is_at_lifetime(at: &Ahead<'_>) -> bool {
    match at.peek(0) {
        Some(token) => matches!(token.kind, Kind::Lifetime),
        None => false,
    }
}
/// Whether a bound comes next.
pub fn begins_bound(at: &Ahead<'_>) -> bool {
    is_at_lifetime(at) || is_at_keyword(at, b"use") || is_at_opened(at, Delim::Paren)
        || is_at_mark(at, b"?") || is_at_keyword(at, b"for")
        || matches!(lead_at(at), Some(Lead::Path))
}
/// Whether a predicate of a where clause comes next.
pub(crate) fn begins_predicate(at: &Ahead<'_>) -> bool {
    is_at_lifetime(at) || lead_at(at).is_some()
}
/// Whether a parameter of a function type comes next.
pub(crate) fn begins_param(at: &Ahead<'_>) -> bool {
    !(is_at_closer(at, Delim::Paren) || at.op_is(b"..."))
}
/// Whether a parameter of a function comes next.
pub(crate) fn begins_fn_param(at: &Ahead<'_>) -> bool {
    !is_at_closer(at, Delim::Paren)
}
/// Whether a field of a struct pattern comes next.
pub(crate) fn begins_field(at: &Ahead<'_>) -> bool {
    !(is_at_closer(at, Delim::Brace) || at.op_is(b".."))
}
/// Whether generic arguments open with the next token.
pub fn opens_args(at: &Ahead<'_>) -> bool {
    at.op_is(b"<") || at.op_is(b"<<") || at.op_is(b"<-")
}
/// Whether a `::` comes next, and then generic arguments open.
pub fn opens_args_late(at: &Ahead<'_>) -> bool {
    let mut behind = at.fork();
    takes_colons(&mut behind) && opens_args(&behind)
}
/// Whether the token is a literal.
fn is_literal(token: &Token) -> bool {
    match token.kind {
        Kind::Ident => {
            token.text.as_bytes() == b"true".as_slice()
                || token.text.as_bytes() == b"false".as_slice()
        }
        Kind::Char | Kind::Str | Kind::RawStr | Kind::Byte | Kind::ByteStr
        | Kind::RawByteStr | Kind::CStr | Kind::RawCStr | Kind::Int | Kind::Float => {
            true
        }
        _ => false,
    }
}
/// Whether a literal comes next.
pub fn is_at_literal(at: &Ahead<'_>) -> bool {
    match at.peek(0) {
        Some(token) => is_literal(token),
        None => false,
    }
}
/// Whether a number comes next.
pub fn is_at_number(at: &Ahead<'_>) -> bool {
    match at.peek(0) {
        Some(token) => matches!(token.kind, Kind::Int | Kind::Float),
        None => false,
    }
}
/// Whether a const generic argument comes next.
pub fn begins_const(at: &Ahead<'_>) -> bool {
    is_at_literal(at) || is_at_mark(at, b"-") || is_at_opened(at, Delim::Brace)
}
