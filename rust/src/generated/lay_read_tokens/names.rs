//! Made by scripts/rust.sh from crates/lay_read_tokens/src/names.rt, which is proved: change that.
//!
//! Parsing of names and of the words of paths.
use crate::generated::lay_read_tokens::ahead::Ahead;
use crate::generated::lay_read_tokens::front::{pass, takes_colons, takes_underscore};
use crate::generated::lay_read_tokens::stop::{ReadNone, copy_of, keep};
use crate::generated::lay_node::{GivenName, Name, Word};
use crate::generated::lay_token::word::{Class, word_class};
use crate::generated::lay_token::{Kind, List, Token};
use crate::shims::Global;
/// Whether a word is no keyword.
pub fn is_plain(word: &[u8]) -> bool {
    matches!(word_class(word), Class::Plain)
}
/// Whether a word may stand in a path.
fn is_path_word(word: &[u8]) -> bool {
    matches!(word_class(word), Class::Plain | Class::PathWord)
}
/// Whether the token is a name; if it is, whether it is a raw identifier.
fn name_of(token: &Token) -> Option<bool> {
    match token.kind {
        Kind::Ident if is_plain(token.text.as_bytes()) => Some(false),
        Kind::RawIdent => Some(true),
        _ => None,
    }
}
/// Whether the token is a word of a path; if it is, whether it is a raw identifier.
fn word_of(token: &Token) -> Option<bool> {
    match token.kind {
        Kind::Ident if is_path_word(token.text.as_bytes()) => Some(false),
        Kind::RawIdent => Some(true),
        _ => None,
    }
}
/// Parses a name.
pub fn read_name(alloc: Global, at: &mut Ahead<'_>) -> Result<Name, ReadNone> {
    let token = match at.peek(0) {
        Some(token) => token,
        None => return Err(ReadNone::NoReading),
    };
    match name_of(token) {
        Some(raw) => {
            let text = copy_of(alloc, &token.text)?;
            pass(at);
            Ok(Name { raw, text })
        }
        None => Err(ReadNone::NoReading),
    }
}
/// Whether a name comes next.
pub fn is_at_name(at: &Ahead<'_>) -> bool {
    match at.peek(0) {
        Some(token) => name_of(token).is_some(),
        None => false,
    }
}
/// Parses a word of a path.
pub fn read_word(alloc: Global, at: &mut Ahead<'_>) -> Result<Word, ReadNone> {
    let token = match at.peek(0) {
        Some(token) => token,
        None => return Err(ReadNone::NoReading),
    };
    match word_of(token) {
        Some(raw) => {
            let text = copy_of(alloc, &token.text)?;
            pass(at);
            Ok(Word { raw, text })
        }
        None => Err(ReadNone::NoReading),
    }
}
/// Parses the words of a path that have a `::` after them.
pub fn read_path_words(
    alloc: Global,
    at: &mut Ahead<'_>,
) -> Result<List<Word>, ReadNone> {
    let mut words = List::new(alloc);
    while begins_path_word(at) {
        let word = read_path_word(alloc, at)?;
        keep(&mut words, word)?;
    }
    Ok(words)
}
/// Whether a word comes next, and then a `::`.
fn begins_path_word(at: &Ahead<'_>) -> bool {
    match at.peek(0) {
        Some(token) => {
            let mut behind = at.fork();
            pass(&mut behind);
            word_of(token).is_some() && behind.op_is(b"::")
        }
        None => false,
    }
}
/// Parses a word and the `::` after it.
fn read_path_word(alloc: Global, at: &mut Ahead<'_>) -> Result<Word, ReadNone> {
    let word = read_word(alloc, at)?;
    if takes_colons(at) { Ok(word) } else { Err(ReadNone::NoReading) }
}
/// Parses a name, or `_`.
pub fn read_given_name(
    alloc: Global,
    at: &mut Ahead<'_>,
) -> Result<GivenName, ReadNone> {
    if takes_underscore(at) {
        return Ok(GivenName::Underscore);
    }
    let name = read_name(alloc, at)?;
    Ok(GivenName::Name(name))
}
