//! Made by scripts/rust.sh from crates/lay_piece/src/piece.rt, which is proved: change that.
//!
//! The piece (lexeme) at the beginning of a text.
pub mod chars;
mod comments;
mod numbers;
mod quoted;
mod words;
use crate::generated::lay_piece::kind::{Delim, Kind};
use chars::{CharSet, first};
/// A piece: its kind and its length in bytes.
#[derive(Clone, Copy, Debug, PartialEq, Eq)]
pub struct Piece {
    pub kind: Kind,
    pub len: usize,
}
/// The piece at the beginning of a text, or `None` if there is none (Rust Reference, "Tokens").
///
/// `index` says that the text follows the `.` of a field access, where digits may be the index of a
/// tuple field.
#[inline(always)]
pub fn piece_at(rest: &str, index: bool) -> Option<Piece> {
    let (kind, tail) = front(index, rest)?;
    Some(Piece { kind, len: rest.len() - tail.len() })
}
/// The kind of the piece at the beginning, and the text after it.
#[inline(always)]
fn front(index: bool, s: &str) -> Option<(Kind, &str)> {
    let (c, tail) = first(s)?;
    if CharSet::WordStart.contains(c) {
        words::word(c, tail)
    } else if c.is_ascii_digit() { numbers::number(index, s) } else { other(c, tail) }
}
#[inline(always)]
fn other(c: char, tail: &str) -> Option<(Kind, &str)> {
    match c {
        '"' => {
            let rest = quoted::after_string(quoted::Contents::Chars, tail)?;
            Some(quoted::literal(Kind::Str, rest))
        }
        '\'' => words::quote(tail),
        '/' => comments::slash(tail),
        _ => single(c, tail),
    }
}
#[inline(always)]
fn single(c: char, tail: &str) -> Option<(Kind, &str)> {
    match c {
        '(' => Some((Kind::Opener(Delim::Paren), tail)),
        ')' => Some((Kind::Closer(Delim::Paren), tail)),
        '[' => Some((Kind::Opener(Delim::Bracket), tail)),
        ']' => Some((Kind::Closer(Delim::Bracket), tail)),
        '{' => Some((Kind::Opener(Delim::Brace), tail)),
        '}' => Some((Kind::Closer(Delim::Brace), tail)),
        _ => if is_punct(c) { Some((Kind::Punct, tail)) } else { None },
    }
}
fn is_punct(c: char) -> bool {
    match c {
        '=' => true,
        '<' => true,
        '>' => true,
        '!' => true,
        '~' => true,
        '+' => true,
        '-' => true,
        '*' => true,
        '/' => true,
        '%' => true,
        '^' => true,
        '&' => true,
        '@' => true,
        '.' => true,
        ',' => true,
        ';' => true,
        ':' => true,
        '#' => true,
        '$' => true,
        '?' => true,
        '|' => true,
        _ => false,
    }
}
