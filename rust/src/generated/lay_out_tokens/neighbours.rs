//! Made by scripts/rust.sh from crates/lay_out_tokens/src/neighbours.rt, which is proved: change that.
//!
//! The neighbours of a place in a token list.
use crate::generated::lay_out_tokens::words::is_block;
use crate::generated::lay_node::{Listed, are_digits};
use crate::generated::lay_token::{Class, Delim, Kind, word_class};
/// A neighbour of a place: none, a single token, or a group in delimiters.
#[derive(Clone, Copy,)]
pub enum Neighbour<'a> {
    Nothing,
    Single(&'a Listed),
    Enclosed(Delim),
}
/// The kind of a token in a token list.
pub fn kind_of(token: &Listed) -> Kind {
    match token {
        Listed::Token { kind, .. } => *kind,
        Listed::Doc { inner, .. } => Kind::Doc { inner: *inner, block: false },
    }
}
/// Whether the token is laid out as a line comment.
pub fn is_line_doc(token: &Listed) -> bool {
    match token {
        Listed::Token { .. } => false,
        Listed::Doc { inner, text } => !is_block(*inner, text.as_bytes()),
    }
}
/// Whether the token is an identifier that is no keyword.
pub fn is_free_word(token: &Listed) -> bool {
    match token {
        Listed::Token { kind, text, .. } => {
            match kind {
                Kind::Ident => !is_strict(text.as_bytes()),
                Kind::RawIdent => true,
                _ => false,
            }
        }
        Listed::Doc { .. } => false,
    }
}
/// Whether the token is a keyword.
pub fn is_keyword(token: &Listed) -> bool {
    match token {
        Listed::Token { kind, text, .. } => {
            match kind {
                Kind::Ident => is_strict(text.as_bytes()),
                _ => false,
            }
        }
        Listed::Doc { .. } => false,
    }
}
/// Whether the token is an identifier or a keyword.
pub fn is_any_word(token: &Listed) -> bool {
    match token {
        Listed::Token { kind, .. } => matches!(kind, Kind::Ident | Kind::RawIdent),
        Listed::Doc { .. } => false,
    }
}
/// Whether a word is a strict keyword.
fn is_strict(text: &[u8]) -> bool {
    matches!(word_class(text), Class::Strict)
}
/// Whether the token is a number: a Float, or an Int that is no tuple index. `place` says that it
/// stands where it could be one.
pub fn is_number(token: &Listed, place: bool) -> bool {
    match token {
        Listed::Token { kind, text, .. } => {
            match kind {
                Kind::Int => !is_index_at(text.as_bytes(), place),
                Kind::Float => true,
                _ => false,
            }
        }
        Listed::Doc { .. } => false,
    }
}
/// Whether the text is a tuple index, if `place` says that it stands where it could be one.
fn is_index_at(text: &[u8], place: bool) -> bool {
    place && is_index(text)
}
/// Whether the text is digits and nothing more.
fn is_index(text: &[u8]) -> bool {
    match text {
        [] => false,
        _ => are_digits(text),
    }
}
