//! Made by scripts/rust.sh from crates/lay_read_pats/src/facts.rt, which is proved: change that.
//!
//! Facts about patterns and paths that the rules need.
use crate::generated::lay_node::{Args, Pat, Path, PathStart, Word};
use crate::generated::lay_token::word::{Class, word_class};
/// Whether the pattern is a name alone, which it binds.
pub(crate) fn is_short(pat: &Pat) -> bool {
    match pat {
        Pat::Bind { of, .. } => of.is_none(),
        _ => false,
    }
}
/// Whether the pattern is a range.
pub(crate) fn is_span(pat: &Pat) -> bool {
    matches!(pat, Pat::Span { .. })
}
/// Whether the pattern is `..` alone.
pub fn is_rest(pat: &Pat) -> bool {
    matches!(pat, Pat::Rest)
}
/// The word of a path that is one word without generic arguments.
pub(crate) fn lone_word(path: &Path) -> Option<&Word> {
    if !matches!(path.start, PathStart::Local) {
        return None;
    }
    match path.segments.as_slice() {
        [segment] if matches!(segment.1, Args::None) => Some(&segment.0),
        _ => None,
    }
}
/// Whether the word is a name.
pub fn is_name(word: &Word) -> bool {
    word.raw || matches!(word_class(word.text.as_bytes()), Class::Plain)
}
/// Whether the word is `self`.
pub fn is_self(word: &Word) -> bool {
    !word.raw && word.text.as_bytes() == b"self".as_slice()
}
