//! Made by scripts/rust.sh from crates/lay_piece/src/piece/comments.rt, which is proved: change that.
//!
//! Documentation comments, and a slash by itself.
use crate::generated::lay_piece::kind::Kind;
use crate::generated::lay_piece::piece::chars::{CharSet, behind, first};
/// The token that a `/` begins: documentation, or the operator; `None` if it begins a plain
/// comment. `tail` is the text after the slash.
pub fn slash(tail: &str) -> Option<(Kind, &str)> {
    match first(tail) {
        Some(('/', rest)) => line_comment(rest),
        Some(('*', rest)) => block_comment(rest),
        _ => Some((Kind::Punct, tail)),
    }
}
/// A line of documentation; `s` is the text after `//`.
fn line_comment(s: &str) -> Option<(Kind, &str)> {
    let (c, tail) = first(s)?;
    match c {
        '!' => line_doc(true, tail),
        '/' => {
            if CharSet::Only('/').begins(tail) { None } else { line_doc(false, tail) }
        }
        _ => None,
    }
}
fn line_doc(inner: bool, s: &str) -> Option<(Kind, &str)> {
    let rest = CharSet::DocLine.after(s);
    if CharSet::Only('\r').begins(rest) { None } else {
        Some((Kind::Doc { inner, block: false }, rest))
    }
}
/// A block of documentation; `s` is the text after `/*`.
fn block_comment(s: &str) -> Option<(Kind, &str)> {
    let (c, tail) = first(s)?;
    match c {
        '!' => block_doc(true, tail),
        '*' => {
            if CharSet::StarOrSlash.begins(tail) { None } else { block_doc(false, tail) }
        }
        _ => None,
    }
}
fn block_doc(inner: bool, s: &str) -> Option<(Kind, &str)> {
    let rest = after_doc(s)?;
    Some((Kind::Doc { inner, block: true }, rest))
}
/// The text after the end of a block comment, in which blocks nest; `None` if it is never closed or
/// holds a CR.
fn after_doc(s: &str) -> Option<&str> {
    let mut inner = 0usize;
    let mut rest = s;
    while let Some((c, tail)) = first(rest) {
        rest = tail;
        if c == '\r' {
            return None;
        }
        if c == '*' {
            if let Some(closed) = behind('/', tail) {
                rest = closed;
                if inner == 0 {
                    return Some(rest);
                }
                inner -= 1;
            }
        } else if c == '/' {
            if let Some(opened) = behind('*', tail) {
                rest = opened;
                inner += 1;
            }
        }
    }
    None
}
