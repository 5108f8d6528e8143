//! Made by scripts/rust.sh from crates/lay_build/src/docs.rt, which is proved: change that.
//!
//! Builders of documentation.
use crate::generated::lay_build_types::{
    BuildError,
    BuiltItem,
    both,
    keep,
    kept,
    one,
    string_literal,
};
use crate::generated::lay_code::{
    Attr,
    Item,
    Listed,
    MetaInput,
    MetaPath,
    SimplePath,
    Tokens,
    Word,
};
use crate::generated::lay_piece::{DocForm, Kind, doc_form};
use crate::generated::lay_text::{NoMemory, Text};
use crate::shims::Global;
use core::str;
/// The item with documentation after its attributes: a comment, or `#[doc = "text"]` if no comment
/// can hold the text. The error is `BadText` if the text is not UTF-8.
pub fn with_doc(
    alloc: Global,
    item: BuiltItem,
    text: &[u8],
) -> Result<BuiltItem, BuildError> {
    let (attr, item) = both(checked_doc(alloc, text), Ok(item.into_parts()))?;
    let (item, need) = item;
    kept(both(with_attr(item, attr), Ok(need)))
}
/// Outer documentation of this text, if it is UTF-8.
fn checked_doc(alloc: Global, text: &[u8]) -> Result<Attr, BuildError> {
    match str::from_utf8(text) {
        Ok(_) => doc(alloc, text),
        Err(_) => Err(BuildError::BadText),
    }
}
/// Outer documentation of this text, as a comment or as an attribute.
fn doc(alloc: Global, text: &[u8]) -> Result<Attr, BuildError> {
    match doc_form(text, false) {
        DocForm::Line | DocForm::Block => {
            Ok(Attr::Doc { inner: false, text: copied(alloc, text)? })
        }
        DocForm::Neither => doc_attr(alloc, text),
    }
}
/// Documentation as an attribute: `#[doc = "text"]`.
fn doc_attr(alloc: Global, text: &[u8]) -> Result<Attr, BuildError> {
    let word = Word { raw: false, text: copied(alloc, b"doc")? };
    let path = SimplePath { global: false, words: one(alloc, word)? };
    let token = Listed::Token {
        kind: Kind::Str,
        text: string_literal(alloc, text)?,
        joint: false,
    };
    Ok(
        Attr::Meta {
            inner: false,
            path: MetaPath::Path(path),
            input: MetaInput::Value(Tokens::new(one(alloc, token)?)),
        },
    )
}
/// A copy of a text.
fn copied(alloc: Global, text: &[u8]) -> Result<Text, BuildError> {
    match Text::from_bytes(alloc, text) {
        Ok(copy) => Ok(copy),
        Err(NoMemory) => Err(BuildError::NoMemory),
    }
}
/// The item with one more attribute, after those that it has.
fn with_attr(item: Item, attr: Attr) -> Result<Item, BuildError> {
    let mut item = item;
    let added = keep(&mut item.attrs, attr);
    let (_, item) = both(added, Ok(item))?;
    Ok(item)
}
