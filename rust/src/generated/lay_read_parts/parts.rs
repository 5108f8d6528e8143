//! Made by scripts/rust.sh from crates/lay_read_parts/src/parts.rt, which is proved: change that.
//!
//! Parsing of lifetimes, literals, binders, const arguments and ABIs.
use crate::generated::lay_read_parts::joins::{both, refused};
use crate::generated::lay_read_parts::leads::{
    is_at_lifetime,
    is_at_literal,
    is_at_number,
};
use crate::generated::lay_read_parts::loops::{
    Closer,
    Joint,
    Part,
    read_chain,
    read_elements,
};
use crate::generated::lay_cook::{Cooked, cook};
use crate::generated::lay_node::{
    Abi,
    Attr,
    Binder,
    Capture,
    ConstArg,
    Lifetime,
    LifetimeParam,
    Literal,
    Word,
};
use crate::generated::lay_read_tokens::attributes::attrs_ahead;
use crate::generated::lay_read_tokens::front::{
    pass,
    takes_closer,
    takes_keyword,
    takes_mark,
    takes_op,
    takes_opener,
};
use crate::generated::lay_read_tokens::names::{is_plain, read_word};
use crate::generated::lay_read_tokens::stop::copy_of;
use crate::generated::lay_read_tokens::tokens::read_tokens;
use crate::generated::lay_read_tokens::{Ahead, Found, ReadNone};
use crate::generated::lay_token::{Delim, List, NoMemory};
use crate::shims::Global;
/// Parses a lifetime.
pub fn read_lifetime(alloc: Global, at: &mut Ahead<'_>) -> Result<Lifetime, ReadNone> {
    let token = match at.peek(0) {
        Some(token) => token,
        None => return Err(ReadNone::NoReading),
    };
    if !is_at_lifetime(at) {
        return Err(ReadNone::NoReading);
    }
    let text = copy_of(alloc, &token.text)?;
    pass(at);
    Ok(Lifetime { text })
}
/// Parses a lifetime, if one comes next.
pub fn read_lifetime_if(
    alloc: Global,
    at: &mut Ahead<'_>,
) -> Result<Option<Lifetime>, ReadNone> {
    if !is_at_lifetime(at) {
        return Ok(None);
    }
    let lifetime = read_lifetime(alloc, at)?;
    Ok(Some(lifetime))
}
/// Lifetimes as the parts of a chain.
struct Lifetimes;
impl Part<Lifetime, ()> for Lifetimes {}
/// Parses a lifetime, which needs no depth.
fn free_lifetime(
    alloc: &Global,
    at: &mut Ahead<'_>,
    _place: (),
) -> Result<Found<Lifetime>, ReadNone> {
    let node = read_lifetime(*alloc, at)?;
    Ok(Found { node, need: 0 })
}
/// Parses the lifetimes after a `:`.
pub fn read_lifetimes(
    alloc: Global,
    at: &mut Ahead<'_>,
) -> Result<List<Lifetime>, ReadNone> {
    if !is_at_lifetime(at) {
        return Ok(List::new(alloc));
    }
    let found = read_chain::<
        Lifetimes,
        Global,
        Lifetime,
        (),
        _,
    >(alloc, at, 0, Joint::Plus, &alloc, free_lifetime, ())?;
    Ok(found.node)
}
/// Parses the bounds of a lifetime, if it has any.
fn read_outlived(alloc: Global, at: &mut Ahead<'_>) -> Result<List<Lifetime>, ReadNone> {
    if takes_op(at, b":") { read_lifetimes(alloc, at) } else { Ok(List::new(alloc)) }
}
/// Parses a lifetime parameter; its attributes were read.
pub fn read_lifetime_behind(
    alloc: Global,
    at: &mut Ahead<'_>,
    attrs: List<Attr>,
) -> Result<LifetimeParam, ReadNone> {
    let (attrs, lifetime) = both(attrs, read_lifetime(alloc, at))?;
    let ((attrs, lifetime), bounds) = both((attrs, lifetime), read_outlived(alloc, at))?;
    Ok(LifetimeParam { attrs, lifetime, bounds })
}
/// Parses a lifetime parameter with its attributes.
fn read_lifetime_param(
    alloc: Global,
    at: &mut Ahead<'_>,
) -> Result<LifetimeParam, ReadNone> {
    let attrs = attrs_ahead(alloc, at, false)?;
    read_lifetime_behind(alloc, at, attrs)
}
/// Lifetime parameters as the elements of a list.
struct LifetimeParams;
impl Part<LifetimeParam, ()> for LifetimeParams {}
/// Parses a lifetime parameter, which needs no depth.
fn free_param(
    alloc: &Global,
    at: &mut Ahead<'_>,
    _place: (),
) -> Result<Found<LifetimeParam>, ReadNone> {
    let node = read_lifetime_param(*alloc, at)?;
    Ok(Found { node, need: 0 })
}
/// Parses the parameters of a binder, after its `<`.
fn read_params(
    alloc: Global,
    at: &mut Ahead<'_>,
) -> Result<List<LifetimeParam>, ReadNone> {
    let found = read_elements::<
        LifetimeParams,
        Global,
        LifetimeParam,
        (),
        _,
    >(alloc, at, 0, Closer::Angle, &alloc, free_param, ())?;
    Ok(found.node)
}
/// Parses a binder, if one comes next.
pub fn read_binder_if(
    alloc: Global,
    at: &mut Ahead<'_>,
) -> Result<Option<Binder>, ReadNone> {
    if !takes_keyword(at, b"for") {
        return Ok(None);
    }
    if !takes_mark(at, b"<") {
        return Err(ReadNone::NoReading);
    }
    let params = read_params(alloc, at)?;
    Ok(Some(Binder { params }))
}
/// Whether the word may stand in `use<..>`: a name, or `Self`.
fn is_captured(word: &Word) -> bool {
    word.raw || is_plain(word.text.as_bytes())
        || word.text.as_bytes() == b"Self".as_slice()
}
/// Parses a lifetime or a word in `use<..>`.
fn read_capture(alloc: Global, at: &mut Ahead<'_>) -> Result<Capture, ReadNone> {
    if is_at_lifetime(at) {
        let lifetime = read_lifetime(alloc, at)?;
        return Ok(Capture::Region { lifetime });
    }
    let word = read_word(alloc, at)?;
    if is_captured(&word) { Ok(Capture::Word { word }) } else {
        Err(ReadNone::NoReading)
    }
}
/// The arguments of `use<..>` as the elements of a list.
struct Captures;
impl Part<Capture, ()> for Captures {}
/// Parses a lifetime or a word in `use<..>`, which needs no depth.
fn free_capture(
    alloc: &Global,
    at: &mut Ahead<'_>,
    _place: (),
) -> Result<Found<Capture>, ReadNone> {
    let node = read_capture(*alloc, at)?;
    Ok(Found { node, need: 0 })
}
/// Parses the arguments of `use<..>`, after the `<`.
fn read_captured(alloc: Global, at: &mut Ahead<'_>) -> Result<List<Capture>, ReadNone> {
    let found = read_elements::<
        Captures,
        Global,
        Capture,
        (),
        _,
    >(alloc, at, 0, Closer::Angle, &alloc, free_capture, ())?;
    Ok(found.node)
}
/// Parses the `<..>` of `use<..>`.
pub fn read_captures(
    alloc: Global,
    at: &mut Ahead<'_>,
) -> Result<List<Capture>, ReadNone> {
    if !takes_mark(at, b"<") {
        return Err(ReadNone::NoReading);
    }
    read_captured(alloc, at)
}
/// Parses the next token as a literal, if `passes`.
pub fn read_literal(
    alloc: Global,
    at: &mut Ahead<'_>,
    passes: bool,
) -> Result<Literal, ReadNone> {
    let token = match at.peek(0) {
        Some(token) => token,
        None => return Err(ReadNone::NoReading),
    };
    if !passes {
        return Err(ReadNone::NoReading);
    }
    let text = copy_of(alloc, &token.text)?;
    pass(at);
    Ok(Literal { kind: token.kind, text })
}
/// Parses a const generic argument.
pub fn read_const(alloc: Global, at: &mut Ahead<'_>) -> Result<ConstArg, ReadNone> {
    if is_at_literal(at) {
        let literal = read_literal(alloc, at, true)?;
        Ok(ConstArg::Literal(literal))
    } else if takes_mark(at, b"-") { read_negative(alloc, at) } else {
        read_braces(alloc, at)
    }
}
/// Parses the number after a `-`.
fn read_negative(alloc: Global, at: &mut Ahead<'_>) -> Result<ConstArg, ReadNone> {
    let passes = is_at_number(at);
    let literal = read_literal(alloc, at, passes)?;
    Ok(ConstArg::Negative(literal))
}
/// Parses a const argument in braces.
fn read_braces(alloc: Global, at: &mut Ahead<'_>) -> Result<ConstArg, ReadNone> {
    if !takes_opener(at, Delim::Brace) {
        return Err(ReadNone::NoReading);
    }
    let tokens = read_tokens(alloc, at)?;
    if takes_closer(at, Delim::Brace) { Ok(ConstArg::Braces(tokens)) } else {
        refused(tokens)
    }
}
/// Whether a string without suffix comes next.
fn is_at_string(alloc: Global, at: &Ahead<'_>) -> Result<bool, ReadNone> {
    match at.front() {
        Some(token) => {
            match cook(alloc, token) {
                Ok(Cooked::Str(_)) => Ok(true),
                Ok(Cooked::NotText) => Ok(false),
                Err(NoMemory) => Err(ReadNone::NoMemory),
            }
        }
        None => Ok(false),
    }
}
/// Parses the string of an ABI after its `extern`, if one comes next.
fn read_abi_name(
    alloc: Global,
    at: &mut Ahead<'_>,
) -> Result<Option<Literal>, ReadNone> {
    if !is_at_string(alloc, at)? {
        return Ok(None);
    }
    let name = read_literal(alloc, at, true)?;
    Ok(Some(name))
}
/// Parses an ABI, if one comes next.
pub fn read_abi_if(alloc: Global, at: &mut Ahead<'_>) -> Result<Option<Abi>, ReadNone> {
    if !takes_keyword(at, b"extern") {
        return Ok(None);
    }
    let name = read_abi_name(alloc, at)?;
    Ok(Some(Abi { name }))
}
