//! Made by scripts/rust.sh from crates/lay_cook/src/cooking.rt, which is proved: change that.
//!
//! From a token to the value of the string literal that it is.
use crate::generated::lay_cook::raw::raw_value;
use crate::generated::lay_cook::strings::{next, push_value};
use crate::generated::lay_token::{Kind, NoMemory, Text, Token};
use crate::shims::Global;
/// The value of a token as a string.
#[derive(Debug,)]
pub enum Cooked {
    /// The value of a string literal without suffix.
    Str(Text),
    /// None: the token is no string literal, or one with a suffix.
    NotText,
}
/// The value of a string literal without suffix (Rust Reference, "String literals", "Raw string
/// literals"). The only error is out of memory.
pub fn cook(alloc: Global, token: &Token) -> Result<Cooked, NoMemory> {
    match token.kind {
        Kind::Str => cook_string(alloc, piece_of(&token.text)),
        Kind::RawStr => cook_raw(alloc, piece_of(&token.text)),
        _ => Ok(Cooked::NotText),
    }
}
/// The text as a `str`.
fn piece_of(text: &Text) -> &str {
    crate::shims::text(text.as_bytes())
}
/// The value of a string literal, unless it has a suffix.
fn cook_string(alloc: Global, piece: &str) -> Result<Cooked, NoMemory> {
    if has_suffix(piece) {
        return Ok(Cooked::NotText);
    }
    let (_, inside) = next(piece);
    let mut value = Text::new(alloc);
    push_value(&mut value, inside)?;
    Ok(Cooked::Str(value))
}
/// The value of a raw string literal, unless it has a suffix.
fn cook_raw(alloc: Global, piece: &str) -> Result<Cooked, NoMemory> {
    if has_suffix(piece) {
        return Ok(Cooked::NotText);
    }
    let (_, quoted) = next(piece);
    let value = Text::from_bytes(alloc, raw_value(quoted))?;
    Ok(Cooked::Str(value))
}
/// Whether a string literal ends in a suffix: without one, it ends in a quote or a `#`.
fn has_suffix(piece: &str) -> bool {
    !(ends_in('"', piece) || ends_in('#', piece))
}
/// Whether the text ends with this ASCII character.
fn ends_in(mark: char, s: &str) -> bool {
    s.ends_with(mark)
}
