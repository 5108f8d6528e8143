//! Made by scripts/rust.sh from crates/lay_build_types/src/strings.rt, which is proved: change that.
//!
//! Builders of string literals.
use crate::generated::lay_build_types::built::BuildError;
use crate::generated::lay_text::{NoMemory, Text};
use crate::shims::Global;
/// The string literal whose value is this text.
pub fn string_literal(alloc: Global, text: &[u8]) -> Result<Text, BuildError> {
    match quoted(alloc, text) {
        Ok(literal) => Ok(literal),
        Err(NoMemory) => Err(BuildError::NoMemory),
    }
}
/// The text in quotes, with the bytes escaped that need it.
fn quoted(alloc: Global, text: &[u8]) -> Result<Text, NoMemory> {
    let mut literal = Text::new(alloc);
    literal.push(b'"')?;
    for byte in text {
        push_escaped(&mut literal, *byte)?;
    }
    literal.push(b'"')?;
    Ok(literal)
}
/// Appends a byte, escaped if it needs it.
fn push_escaped(literal: &mut Text, byte: u8) -> Result<(), NoMemory> {
    match byte {
        b'"' => literal.push_bytes(b"\\\""),
        b'\\' => literal.push_bytes(b"\\\\"),
        b'\n' => literal.push_bytes(b"\\n"),
        b'\r' => literal.push_bytes(b"\\r"),
        _ => literal.push(byte),
    }
}
