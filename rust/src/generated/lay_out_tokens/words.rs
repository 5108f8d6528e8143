//! Made by scripts/rust.sh from crates/lay_out_tokens/src/words.rt, which is proved: change that.
//!
//! The layout of words, documentation, and other single tokens.
use crate::generated::lay_stream::Emit;
use crate::generated::lay_token::{DocForm, Kind, Text, doc_form};
/// Emits a word or a name; a raw one with its `r#`.
pub fn put_word<E: Emit>(out: &mut E, raw: bool, text: &Text) -> Result<(), E::Fault> {
    if !raw {
        return out.text(text.as_bytes());
    }
    put_raw(out, text.as_bytes())
}
/// Emits a token as it is spelled, given its kind and text.
pub fn put_token<E: Emit>(out: &mut E, kind: Kind, text: &[u8]) -> Result<(), E::Fault> {
    match kind {
        Kind::RawIdent => put_raw(out, text),
        Kind::Doc { inner, .. } => put_doc(out, inner, text),
        _ => out.text(text),
    }
}
/// Emits a raw identifier.
fn put_raw<E: Emit>(out: &mut E, text: &[u8]) -> Result<(), E::Fault> {
    out.text(b"r#")?;
    out.text(text)
}
/// Emits documentation: as a line comment, or as a block comment if its text has several lines.
pub fn put_doc<E: Emit>(out: &mut E, inner: bool, text: &[u8]) -> Result<(), E::Fault> {
    if is_block(inner, text) {
        return put_block(out, inner, text);
    }
    put_line(out, inner, text)
}
/// Whether documentation of this text is laid out as a block comment.
pub fn is_block(inner: bool, text: &[u8]) -> bool {
    match doc_form(text, inner) {
        DocForm::Block => true,
        _ => false,
    }
}
/// Emits a block comment.
fn put_block<E: Emit>(out: &mut E, inner: bool, text: &[u8]) -> Result<(), E::Fault> {
    put_either(out, inner, b"/*!", b"/**")?;
    put_text(out, text)?;
    out.text(b"*/")
}
/// Emits a line comment.
fn put_line<E: Emit>(out: &mut E, inner: bool, text: &[u8]) -> Result<(), E::Fault> {
    put_either(out, inner, b"//!", b"///")?;
    put_text(out, text)
}
/// Emits `if_inner` for an inner attribute, else `if_outer`.
pub fn put_either<
    E: Emit,
>(out: &mut E, inner: bool, if_inner: &[u8], if_outer: &[u8]) -> Result<(), E::Fault> {
    if inner {
        return out.text(if_inner);
    }
    out.text(if_outer)
}
/// Emits a text, if it isn't empty.
fn put_text<E: Emit>(out: &mut E, text: &[u8]) -> Result<(), E::Fault> {
    if text.is_empty() {
        return Ok(());
    }
    out.text(text)
}
