//! Made by scripts/rust.sh from crates/lay_read_head_rules/src/uses.rt, which is proved: change that.
//!
//! Parsing of use trees.
use crate::generated::lay_node::{GivenName, UseEnd, UseTree};
use crate::generated::lay_read_tokens::ReadNone;
use crate::generated::lay_read_tokens::ahead::Ahead;
use crate::generated::lay_read_tokens::found::{Found, greater};
use crate::generated::lay_read_tokens::front::{
    is_at_colons,
    takes_closer,
    takes_colons,
    takes_element_end,
    takes_keyword,
    takes_op,
    takes_opener,
};
use crate::generated::lay_read_tokens::names::{
    read_given_name,
    read_path_words,
    read_word,
};
use crate::generated::lay_read_tokens::stop::keep;
use crate::generated::lay_token::{Delim, List};
use crate::shims::Global;
/// Parses a use tree, within `depth` levels.
pub fn use_ahead(
    alloc: Global,
    at: &mut Ahead<'_>,
    depth: u32,
) -> Result<Found<UseTree>, ReadNone> {
    if depth == 0 {
        return Err(ReadNone::NoReading);
    }
    let global = takes_colons(at);
    let path = read_path_words(alloc, at)?;
    let end = read_use_end(alloc, at, depth - 1)?;
    if is_at_colons(at) {
        return Err(ReadNone::NoReading);
    }
    Ok(Found { need: end.need + 1, node: UseTree { global, path, end: end.node } })
}
/// Parses the end of a use tree, after its path. The trees in it fit in `depth` levels.
fn read_use_end(
    alloc: Global,
    at: &mut Ahead<'_>,
    depth: u32,
) -> Result<Found<UseEnd>, ReadNone> {
    if takes_opener(at, Delim::Brace) {
        read_group(alloc, at, depth)
    } else if takes_op(at, b"*") { Ok(Found { node: UseEnd::Glob, need: 0 }) } else {
        read_use_word(alloc, at)
    }
}
/// Parses the use trees of a group, which fit in `depth` levels, and the `}` after them.
fn read_group(
    alloc: Global,
    at: &mut Ahead<'_>,
    depth: u32,
) -> Result<Found<UseEnd>, ReadNone> {
    let mut trees = List::new(alloc);
    let mut need = 0;
    while !takes_closer(at, Delim::Brace) {
        let tree = use_ahead(alloc, at, depth)?;
        need = greater(need, tree.need);
        keep(&mut trees, tree.node)?;
        if !takes_element_end(at, Delim::Brace) {
            return Err(ReadNone::NoReading);
        }
    }
    Ok(Found { node: UseEnd::Group { trees }, need })
}
/// Parses a word, and `as` with another name if that follows.
fn read_use_word(alloc: Global, at: &mut Ahead<'_>) -> Result<Found<UseEnd>, ReadNone> {
    let word = read_word(alloc, at)?;
    let rename = read_rename(alloc, at)?;
    Ok(Found { node: UseEnd::Word { word, rename }, need: 0 })
}
/// Parses `as` and another name, if they come next.
pub(crate) fn read_rename(
    alloc: Global,
    at: &mut Ahead<'_>,
) -> Result<Option<GivenName>, ReadNone> {
    if !takes_keyword(at, b"as") {
        return Ok(None);
    }
    let rename = read_given_name(alloc, at)?;
    Ok(Some(rename))
}
