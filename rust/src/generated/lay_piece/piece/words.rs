//! Made by scripts/rust.sh from crates/lay_piece/src/piece/words.rt, which is proved: change that.
//!
//! Identifiers, keywords, lifetimes, and literals with a word as their prefix.
use crate::generated::lay_piece::kind::Kind;
use crate::generated::lay_piece::piece::chars::{CharSet, behind, first};
use crate::generated::lay_piece::piece::quoted::{
    Contents,
    after_char,
    after_raw,
    after_string,
    begins_suffix,
    literal,
};
use crate::generated::lay_piece::word::is_path_word;
/// The word that begins with `c`; `tail` is the text after `c`. Before a quote or a `#` the word is
/// the prefix of a literal, or there is no token.
#[inline(always)]
pub fn word(c: char, tail: &str) -> Option<(Kind, &str)> {
    let rest = CharSet::Word.after(tail);
    if CharSet::Mark.begins(rest) {
        prefixed(c, tail)
    } else if c == '_' && !CharSet::Word.begins(tail) {
        Some((Kind::Underscore, rest))
    } else { Some((Kind::Ident, rest)) }
}
fn prefixed(c: char, tail: &str) -> Option<(Kind, &str)> {
    match c {
        'r' => raw_word(tail),
        'b' => byte_word(tail),
        'c' => c_word(tail),
        _ => None,
    }
}
/// A raw string or a raw identifier; `s` follows its `r`.
fn raw_word(s: &str) -> Option<(Kind, &str)> {
    match after_raw(Contents::Chars, s) {
        Some(rest) => Some(literal(Kind::RawStr, rest)),
        None => {
            match behind('#', s) {
                Some(name) => raw_name(name),
                None => None,
            }
        }
    }
}
/// A raw identifier; `s` follows its `r#`.
fn raw_name(s: &str) -> Option<(Kind, &str)> {
    if !begins_suffix(s) {
        return None;
    }
    let rest = CharSet::Word.after(s);
    if is_path_word(before(s, rest)) {
        return None;
    }
    Some((Kind::RawIdent, rest))
}
/// The bytes of a text before its end `rest`.
fn before<'a>(s: &'a str, rest: &str) -> &'a [u8] {
    &s.as_bytes()[..s.len() - rest.len()]
}
/// A byte or a byte string literal; `s` follows its `b`.
fn byte_word(s: &str) -> Option<(Kind, &str)> {
    let (c, tail) = first(s)?;
    match c {
        '\'' => Some(literal(Kind::Byte, after_char(Contents::Bytes, tail)?)),
        '"' => Some(literal(Kind::ByteStr, after_string(Contents::Bytes, tail)?)),
        'r' => Some(literal(Kind::RawByteStr, after_raw(Contents::Bytes, tail)?)),
        _ => None,
    }
}
/// A C string literal; `s` follows its `c`.
fn c_word(s: &str) -> Option<(Kind, &str)> {
    let (c, tail) = first(s)?;
    match c {
        '"' => Some(literal(Kind::CStr, after_string(Contents::CChars, tail)?)),
        'r' => Some(literal(Kind::RawCStr, after_raw(Contents::CChars, tail)?)),
        _ => None,
    }
}
/// A character or a lifetime; `s` follows its quote.
pub fn quote(s: &str) -> Option<(Kind, &str)> {
    match after_char(Contents::Chars, s) {
        Some(rest) => Some(literal(Kind::Char, rest)),
        None => lifetime(s),
    }
}
fn lifetime(s: &str) -> Option<(Kind, &str)> {
    let (c, tail) = first(s)?;
    if !CharSet::WordStart.contains(c) {
        return None;
    }
    let rest = CharSet::Word.after(tail);
    if CharSet::Tick.begins(rest) {
        return None;
    }
    Some((Kind::Lifetime, rest))
}
