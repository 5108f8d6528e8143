//! Made by scripts/rust.sh from crates/lay_node/src/token.rt, which is proved: change that.
//!
//! The tokens that trees hold: names, words, lifetimes, literals, and the tokens of token lists.
use crate::generated::lay_token::{Kind, Text};
/// A name: an identifier that is no keyword, or a raw identifier. The text has no `r#`.
#[derive(Debug, Clone, PartialEq, Eq)]
pub struct Name {
    pub raw: bool,
    pub text: Text,
}
/// A name, or `_` in its place.
#[derive(Debug, Clone, PartialEq, Eq)]
pub enum GivenName {
    Name(Name),
    /// `_`
    Underscore,
}
/// A word of a path: a name, or `crate`, `self`, `super` or `Self`.
#[derive(Debug, Clone, PartialEq, Eq)]
pub struct Word {
    pub raw: bool,
    pub text: Text,
}
/// A token of a token list. The tree doesn't keep its place in the text, nor whether documentation
/// was a block.
#[derive(Debug, Clone, PartialEq, Eq)]
pub enum Listed {
    /// Any token but documentation. `joint`: another punctuation token follows directly.
    Token {
        kind: Kind,
        text: Text,
        joint: bool,
    },
    /// Documentation.
    Doc {
        inner: bool,
        text: Text,
    },
}
/// A lifetime, with its `'` (Rust Reference, "Lifetimes and loop labels").
#[derive(Clone, Debug, PartialEq, Eq)]
pub struct Lifetime {
    pub text: Text,
}
/// A literal token, or `true` or `false`, which are identifiers (Rust Reference, "Literal
/// expressions").
#[derive(Clone, Debug, PartialEq, Eq)]
pub struct Literal {
    pub kind: Kind,
    pub text: Text,
}
/// Whether each byte of the text is a decimal digit, as in the index of a tuple field (Rust
/// Reference, "Tuple index"). True of an empty text.
pub fn are_digits(text: &[u8]) -> bool {
    for byte in text {
        if !byte.is_ascii_digit() {
            return false;
        }
    }
    true
}
