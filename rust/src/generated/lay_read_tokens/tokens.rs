//! Made by scripts/rust.sh from crates/lay_read_tokens/src/tokens.rt, which is proved: change that.
//!
//! Parsing of token lists and groups.
use crate::generated::lay_read_tokens::ahead::Ahead;
use crate::generated::lay_read_tokens::front::is_at_mark;
use crate::generated::lay_read_tokens::stop::{ReadNone, copy_of, keep, room_for};
use crate::generated::lay_node::{Group, Listed, Tokens};
use crate::generated::lay_token::{Delim, DocForm, Kind, List, Text, Token, doc_form};
use crate::shims::Global;
/// Parses a token list: the tokens up to the closer of the group around it, or to the end.
pub fn read_tokens(alloc: Global, at: &mut Ahead<'_>) -> Result<Tokens, ReadNone> {
    read_list(alloc, at, false)
}
/// Parses a token list that ends before the first comma outside its groups, if there is one.
pub fn read_tokens_before_comma(
    alloc: Global,
    at: &mut Ahead<'_>,
) -> Result<Tokens, ReadNone> {
    read_list(alloc, at, true)
}
/// Parses a token list; `to_comma` says that it ends before the first comma outside its groups.
fn read_list(
    alloc: Global,
    at: &mut Ahead<'_>,
    to_comma: bool,
) -> Result<Tokens, ReadNone> {
    let mut list = List::new(alloc);
    while goes_on(at, to_comma) {
        add_tokens(alloc, &mut list, at.tree())?;
    }
    Ok(Tokens::new(list))
}
/// Whether a token tree comes next that belongs to the list.
fn goes_on(at: &Ahead<'_>, to_comma: bool) -> bool {
    is_at_tree(at) && !(to_comma && is_at_mark(at, b","))
}
/// Whether a token tree comes next.
fn is_at_tree(at: &Ahead<'_>) -> bool {
    match at.peek(0) {
        Some(token) => !matches!(token.kind, Kind::Closer(_)),
        None => false,
    }
}
/// Parses a group.
pub fn read_group(alloc: Global, at: &mut Ahead<'_>) -> Result<Group, ReadNone> {
    match opener(at) {
        Some(delim) => read_opened(alloc, at, delim),
        None => Err(ReadNone::NoReading),
    }
}
/// The delimiter of the next token, if that is an opener.
fn opener(at: &Ahead<'_>) -> Option<Delim> {
    match at.peek(0) {
        Some(token) => {
            match token.kind {
                Kind::Opener(delim) => Some(delim),
                _ => None,
            }
        }
        None => None,
    }
}
/// Parses a group that begins with an opener of this delimiter.
fn read_opened(
    alloc: Global,
    at: &mut Ahead<'_>,
    delim: Delim,
) -> Result<Group, ReadNone> {
    let inside = at.group();
    let tokens = list_of(alloc, inside.as_slice())?;
    Ok(Group { delim, tokens })
}
/// The token list of balanced tokens.
fn list_of(alloc: Global, tokens: &[Token]) -> Result<Tokens, ReadNone> {
    let mut list = room_for(alloc, tokens.len())?;
    add_tokens(alloc, &mut list, tokens)?;
    Ok(Tokens::new(list))
}
/// Appends the tokens to a token list.
#[inline]
fn add_tokens(
    alloc: Global,
    list: &mut List<Listed>,
    tokens: &[Token],
) -> Result<(), ReadNone> {
    for token in tokens {
        let listed = listed(alloc, token)?;
        keep(list, listed)?;
    }
    Ok(())
}
/// The token as a token list holds it. The error is `NoReading` for documentation that can't be
/// laid out.
#[inline(always)]
fn listed(alloc: Global, token: &Token) -> Result<Listed, ReadNone> {
    match token.kind {
        Kind::Doc { inner, .. } => listed_doc(alloc, inner, &token.text),
        kind => listed_token(alloc, kind, token),
    }
}
/// Documentation as a token list holds it.
fn listed_doc(alloc: Global, inner: bool, text: &Text) -> Result<Listed, ReadNone> {
    if !is_doc_text(text.as_bytes(), inner) {
        return Err(ReadNone::NoReading);
    }
    let text = copy_of(alloc, text)?;
    Ok(Listed::Doc { inner, text })
}
/// A token other than documentation as a token list holds it. Only punctuation is joint.
#[inline(always)]
fn listed_token(alloc: Global, kind: Kind, token: &Token) -> Result<Listed, ReadNone> {
    let text = copy_of(alloc, &token.text)?;
    Ok(Listed::Token { kind, text, joint: matches!(kind, Kind::Punct) && token.joint })
}
/// Whether the text can be written as documentation.
pub(crate) fn is_doc_text(text: &[u8], inner: bool) -> bool {
    match doc_form(text, inner) {
        DocForm::Line => true,
        DocForm::Block => true,
        DocForm::Neither => false,
    }
}
