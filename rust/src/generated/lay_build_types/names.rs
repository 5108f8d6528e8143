//! Made by scripts/rust.sh from crates/lay_build_types/src/names.rt, which is proved: change that.
//!
//! Builders of names, and of paths of names.
use crate::generated::lay_build_types::built::{BuildError, kept};
use crate::generated::lay_build_types::joins::keep;
use crate::generated::lay_build_types::kinds::BuiltName;
use crate::generated::lay_code::{Args, Name, Path, PathStart, Word};
use crate::generated::lay_piece::word::is_path_word;
use crate::generated::lay_piece::{Class, Kind, piece_at, word_class};
use crate::generated::lay_text::{List, NoMemory, Text};
use crate::shims::Global;
use core::str;
/// A name; a keyword becomes a raw identifier. The error is `BadName` if the text is not an
/// identifier, or is `_`, `crate`, `self`, `super` or `Self`.
pub fn name(alloc: Global, text: &[u8]) -> Result<BuiltName, BuildError> {
    if !is_identifier(text) || is_path_word(text) {
        return Err(BuildError::BadName);
    }
    let raw = is_raw(word_class(text));
    match Text::from_bytes(alloc, text) {
        Ok(text) => kept(Ok((Name { raw, text }, 0))),
        Err(NoMemory) => Err(BuildError::NoMemory),
    }
}
/// Whether a text is an identifier, and nothing more.
fn is_identifier(text: &[u8]) -> bool {
    match str::from_utf8(text) {
        Ok(text) => {
            match piece_at(text, false) {
                Some(piece) => is_ident(piece.kind) && piece.len == text.len(),
                None => false,
            }
        }
        Err(_) => false,
    }
}
/// Whether a piece of this kind is an identifier.
fn is_ident(kind: Kind) -> bool {
    matches!(kind, Kind::Ident)
}
/// Whether words of this class can only be names as raw identifiers.
fn is_raw(class: Class) -> bool {
    matches!(class, Class::Strict | Class::Reserved)
}
/// The path of these names; the last one has these generic arguments.
pub fn path(
    alloc: Global,
    first: Name,
    rest: List<Name>,
    arguments: Args,
) -> Result<Path, BuildError> {
    let segments = segments(alloc, first, rest, arguments)?;
    Ok(Path { start: PathStart::Local, segments })
}
/// The segments of a path of these names; the last one has these generic arguments.
fn segments(
    alloc: Global,
    first: Name,
    rest: List<Name>,
    arguments: Args,
) -> Result<List<(Word, Args)>, BuildError> {
    let mut segments = List::new(alloc);
    let mut last = first;
    let mut rest = rest.into_vec();
    rest.reverse();
    while let Some(next) = rest.pop() {
        keep(&mut segments, (word(last), Args::None))?;
        last = next;
    }
    keep(&mut segments, (word(last), arguments))?;
    Ok(segments)
}
/// The name as a word of a path.
fn word(name: Name) -> Word {
    let Name { raw, text } = name;
    Word { raw, text }
}
