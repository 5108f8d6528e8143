//! Made by scripts/rust.sh from crates/lay_out_tokens/src/attributes.rt, which is proved: change that.
//!
//! The layout of attributes and documentation.
use crate::generated::lay_out_tokens::notation::HARD_BREAK;
use crate::generated::lay_out_tokens::simple_paths::put_simple_path;
use crate::generated::lay_out_tokens::tokens::{put_group, put_tokens};
use crate::generated::lay_out_tokens::words::{is_block, put_doc, put_either};
use crate::generated::lay_node::{Attr, MetaInput, MetaPath, Tokens};
use crate::generated::lay_stream::Emit;
/// Emits the layout of an attribute within other parts: an inner one alone; an outer one with a
/// newline after it if `own_line` or if it is a line comment, else with a blank.
pub fn put_attr<
    E: Emit,
>(out: &mut E, attr: &Attr, own_line: bool) -> Result<(), E::Fault> {
    put_bare_attr(out, attr)?;
    put_behind_attr(out, attr, own_line)
}
/// Emits an attribute, and nothing after it.
pub fn put_bare_attr<E: Emit>(out: &mut E, attr: &Attr) -> Result<(), E::Fault> {
    match attr {
        Attr::Doc { inner, text } => put_doc(out, *inner, text.as_bytes()),
        Attr::Meta { inner, path, input } => put_meta(out, *inner, path, input),
    }
}
/// Emits what follows an attribute within other parts.
fn put_behind_attr<
    E: Emit,
>(out: &mut E, attr: &Attr, own_line: bool) -> Result<(), E::Fault> {
    if is_inner(attr) {
        return Ok(());
    }
    if own_line || is_line(attr) {
        return out.brk(HARD_BREAK);
    }
    out.text(b" ")
}
/// Whether the attribute is an inner one.
fn is_inner(attr: &Attr) -> bool {
    match attr {
        Attr::Doc { inner, .. } => *inner,
        Attr::Meta { inner, .. } => *inner,
    }
}
/// Whether the attribute is laid out as a line comment.
fn is_line(attr: &Attr) -> bool {
    match attr {
        Attr::Doc { inner, text } => !is_block(*inner, text.as_bytes()),
        Attr::Meta { .. } => false,
    }
}
/// Emits an attribute that isn't documentation.
fn put_meta<
    E: Emit,
>(out: &mut E, inner: bool, path: &MetaPath, input: &MetaInput) -> Result<(), E::Fault> {
    put_either(out, inner, b"#![", b"#[")?;
    put_meta_path(out, path)?;
    put_input(out, input)?;
    out.text(b"]")
}
/// Emits the name of an attribute.
fn put_meta_path<E: Emit>(out: &mut E, path: &MetaPath) -> Result<(), E::Fault> {
    match path {
        MetaPath::Path(path) => put_simple_path(out, path),
        MetaPath::Unsafe => out.text(b"unsafe"),
    }
}
/// Emits the input of an attribute.
fn put_input<E: Emit>(out: &mut E, input: &MetaInput) -> Result<(), E::Fault> {
    match input {
        MetaInput::Bare => Ok(()),
        MetaInput::Group(group) => put_group(out, group),
        MetaInput::Value(tokens) => put_value(out, tokens),
    }
}
/// Emits a `=` and tokens.
fn put_value<E: Emit>(out: &mut E, tokens: &Tokens) -> Result<(), E::Fault> {
    out.text(b" = ")?;
    put_tokens(out, tokens)
}
