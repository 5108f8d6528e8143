//! Made by scripts/rust.sh from crates/lay_read_tokens/src/attributes.rt, which is proved: change that.
//!
//! Parsing of attributes and documentation.
use crate::generated::lay_read_tokens::ahead::Ahead;
use crate::generated::lay_read_tokens::front::{
    is_at_closer,
    is_at_mark,
    is_at_opener,
    pass,
    pass_two,
    takes_closer,
    takes_keyword,
    takes_mark,
    takes_op,
    takes_opener,
};
use crate::generated::lay_read_tokens::simple_paths::read_simple_path;
use crate::generated::lay_read_tokens::stop::{ReadNone, copy_of, keep};
use crate::generated::lay_read_tokens::tokens::{is_doc_text, read_group, read_tokens};
use crate::generated::lay_cook::{Cooked, cook};
use crate::generated::lay_nest::Cursor;
use crate::generated::lay_node::{Attr, MetaInput, MetaPath};
use crate::generated::lay_token::{Delim, Kind, List, NoMemory, Text, Token};
use crate::shims::Global;
/// Parses all attributes that come next: the inner ones, or the outer ones. On an error the cursor
/// doesn't move.
pub fn read_attrs(
    alloc: Global,
    at: &mut Cursor<'_>,
    inner: bool,
) -> Result<List<Attr>, ReadNone> {
    let mut ahead = Ahead::new(at.fork());
    let attrs = attrs_ahead(alloc, &mut ahead, inner)?;
    *at = ahead.into_cursor();
    Ok(attrs)
}
/// Parses the next attribute, an inner or an outer one. On an error the cursor doesn't move.
pub fn read_attr(
    alloc: Global,
    at: &mut Cursor<'_>,
    inner: bool,
) -> Result<Attr, ReadNone> {
    let mut ahead = Ahead::new(at.fork());
    let attr = attr_ahead(alloc, &mut ahead, inner)?;
    *at = ahead.into_cursor();
    Ok(attr)
}
/// Parses all attributes that come next. After an error the cursor may be anywhere.
pub fn attrs_ahead(
    alloc: Global,
    at: &mut Ahead<'_>,
    inner: bool,
) -> Result<List<Attr>, ReadNone> {
    let mut attrs = List::new(alloc);
    while begins_attr(at, inner) {
        let attr = attr_ahead(alloc, at, inner)?;
        keep(&mut attrs, attr)?;
    }
    Ok(attrs)
}
/// Whether an attribute comes next.
fn begins_attr(at: &Ahead<'_>, inner: bool) -> bool {
    if is_at_doc(at, inner) {
        return true;
    }
    if !is_at_mark(at, b"#") {
        return false;
    }
    if !inner {
        return true;
    }
    let mut behind = at.fork();
    pass(&mut behind);
    is_at_mark(&behind, b"!")
}
/// Parses the next attribute. After an error the cursor may be anywhere.
fn attr_ahead(alloc: Global, at: &mut Ahead<'_>, inner: bool) -> Result<Attr, ReadNone> {
    if is_at_doc(at, inner) { read_doc(alloc, at, inner) } else {
        read_meta(alloc, at, inner)
    }
}
/// Whether a documentation comment comes next: an inner one if `inner`, else an outer one.
fn is_at_doc(at: &Ahead<'_>, inner: bool) -> bool {
    match at.peek(0) {
        Some(token) => {
            match token.kind {
                Kind::Doc { inner: found, .. } => found == inner,
                _ => false,
            }
        }
        None => false,
    }
}
/// Parses a documentation comment.
fn read_doc(alloc: Global, at: &mut Ahead<'_>, inner: bool) -> Result<Attr, ReadNone> {
    let token = match at.peek(0) {
        Some(token) => token,
        None => return Err(ReadNone::NoReading),
    };
    if !is_doc_text(token.text.as_bytes(), inner) {
        return Err(ReadNone::NoReading);
    }
    let text = copy_of(alloc, &token.text)?;
    pass(at);
    Ok(Attr::Doc { inner, text })
}
/// Parses an attribute in brackets.
fn read_meta(alloc: Global, at: &mut Ahead<'_>, inner: bool) -> Result<Attr, ReadNone> {
    if !takes_opening(at, inner) {
        return Err(ReadNone::NoReading);
    }
    let path = read_meta_path(alloc, at)?;
    read_meta_input(alloc, at, inner, path)
}
/// Moves past `#[`, or the `#![` of an inner attribute, if it comes next, and says whether it did.
/// If it didn't, the cursor may be anywhere.
fn takes_opening(at: &mut Ahead<'_>, inner: bool) -> bool {
    if !takes_mark(at, b"#") {
        return false;
    }
    if inner && !takes_mark(at, b"!") {
        return false;
    }
    takes_opener(at, Delim::Bracket)
}
/// Parses the name of an attribute.
fn read_meta_path(alloc: Global, at: &mut Ahead<'_>) -> Result<MetaPath, ReadNone> {
    if takes_keyword(at, b"unsafe") {
        return Ok(MetaPath::Unsafe);
    }
    let path = read_simple_path(alloc, at)?;
    Ok(MetaPath::Path(path))
}
/// Parses the input of an attribute, and its closing bracket.
fn read_meta_input(
    alloc: Global,
    at: &mut Ahead<'_>,
    inner: bool,
    path: MetaPath,
) -> Result<Attr, ReadNone> {
    if takes_op(at, b"=") {
        read_value(alloc, at, inner, path)
    } else if is_at_opener(at) { read_grouped(alloc, at, inner, path) } else {
        close(at, inner, path, MetaInput::Bare)
    }
}
/// Parses the closing bracket of an attribute that is no documentation.
fn close(
    at: &mut Ahead<'_>,
    inner: bool,
    path: MetaPath,
    input: MetaInput,
) -> Result<Attr, ReadNone> {
    if takes_closer(at, Delim::Bracket) { Ok(Attr::Meta { inner, path, input }) } else {
        Err(ReadNone::NoReading)
    }
}
/// Parses the input of an attribute that is a group, and the closing bracket.
fn read_grouped(
    alloc: Global,
    at: &mut Ahead<'_>,
    inner: bool,
    path: MetaPath,
) -> Result<Attr, ReadNone> {
    let group = read_group(alloc, at)?;
    close(at, inner, path, MetaInput::Group(group))
}
/// Parses the value of an attribute, and its closing bracket.
fn read_value(
    alloc: Global,
    at: &mut Ahead<'_>,
    inner: bool,
    path: MetaPath,
) -> Result<Attr, ReadNone> {
    match doc_value(alloc, at, inner, &path)? {
        Some(text) => {
            pass_two(at);
            Ok(Attr::Doc { inner, text })
        }
        None => read_other_value(alloc, at, inner, path),
    }
}
/// Parses the value of an attribute that isn't documentation, and the closing bracket.
fn read_other_value(
    alloc: Global,
    at: &mut Ahead<'_>,
    inner: bool,
    path: MetaPath,
) -> Result<Attr, ReadNone> {
    let input = read_listed(alloc, at)?;
    close(at, inner, path, input)
}
/// Parses a token list with at least one token.
fn read_listed(alloc: Global, at: &mut Ahead<'_>) -> Result<MetaInput, ReadNone> {
    let tokens = read_tokens(alloc, at)?;
    if tokens.as_slice().is_empty() {
        return Err(ReadNone::NoReading);
    }
    Ok(MetaInput::Value(tokens))
}
/// The text of the documentation, if the value is one string literal before the closing bracket.
fn doc_value(
    alloc: Global,
    at: &Ahead<'_>,
    inner: bool,
    path: &MetaPath,
) -> Result<Option<Text>, ReadNone> {
    if is_doc_path(path) && is_alone(at) { front_doc(alloc, at, inner) } else {
        Ok(None)
    }
}
/// Whether a closing bracket stands after the first token.
fn is_alone(at: &Ahead<'_>) -> bool {
    let mut behind = at.fork();
    pass(&mut behind);
    is_at_closer(&behind, Delim::Bracket)
}
/// The text of the documentation whose value is the next token.
fn front_doc(
    alloc: Global,
    at: &Ahead<'_>,
    inner: bool,
) -> Result<Option<Text>, ReadNone> {
    match at.front() {
        Some(token) => doc_text(alloc, token, inner),
        None => Ok(None),
    }
}
/// The value of this string literal as the text of documentation; `None` if it can't be one.
fn doc_text(
    alloc: Global,
    token: &Token,
    inner: bool,
) -> Result<Option<Text>, ReadNone> {
    match cook(alloc, token) {
        Ok(Cooked::Str(text)) if is_doc_text(text.as_bytes(), inner) => Ok(Some(text)),
        Ok(_) => Ok(None),
        Err(NoMemory) => Err(ReadNone::NoMemory),
    }
}
/// Whether the name of an attribute is `doc`.
fn is_doc_path(path: &MetaPath) -> bool {
    match path {
        MetaPath::Path(path) => {
            match path.words.as_slice() {
                [word] => {
                    !path.global && !word.raw
                        && word.text.as_bytes() == b"doc".as_slice()
                }
                _ => false,
            }
        }
        MetaPath::Unsafe => false,
    }
}
