//! Made by scripts/rust.sh from crates/lay_read_head_rules/src/vis.rt, which is proved: change that.
//!
//! Parsing of visibilities.
use crate::generated::lay_node::Vis;
use crate::generated::lay_read_tokens::front::{
    is_at_closer,
    pass,
    pass_two,
    takes_closer,
    takes_keyword,
    takes_opener,
};
use crate::generated::lay_read_tokens::simple_paths::read_simple_path;
use crate::generated::lay_read_tokens::{Ahead, ReadNone};
use crate::generated::lay_token::Delim;
use crate::shims::Global;
/// Parses a visibility, which may be nothing.
pub fn vis_ahead(alloc: Global, at: &mut Ahead<'_>) -> Result<Vis, ReadNone> {
    if takes_keyword(at, b"pub") { vis_behind(alloc, at) } else { Ok(Vis::Inherited) }
}
/// Parses a visibility after its `pub`.
fn vis_behind(alloc: Global, at: &mut Ahead<'_>) -> Result<Vis, ReadNone> {
    if takes_restriction(at, b"crate") {
        Ok(Vis::Crate)
    } else if takes_restriction(at, b"self") {
        Ok(Vis::Own)
    } else if takes_restriction(at, b"super") { Ok(Vis::Super) } else {
        read_vis_in(alloc, at)
    }
}
/// Whether this word in parentheses comes next.
fn is_restricted(at: &Ahead<'_>, word: &[u8]) -> bool {
    let mut behind = at.fork();
    takes_opener(&mut behind, Delim::Paren) && takes_keyword(&mut behind, word)
        && is_at_closer(&behind, Delim::Paren)
}
/// Moves past this word in parentheses if it comes next, and says whether it did.
fn takes_restriction(at: &mut Ahead<'_>, word: &[u8]) -> bool {
    let found = is_restricted(at, word);
    if found {
        pass_two(at);
        pass(at);
    }
    found
}
/// Parses `in` and a path in parentheses, if they come next.
fn read_vis_in(alloc: Global, at: &mut Ahead<'_>) -> Result<Vis, ReadNone> {
    let mut behind = at.fork();
    if !takes_opener(&mut behind, Delim::Paren) || !takes_keyword(&mut behind, b"in") {
        return Ok(Vis::Public);
    }
    match read_simple_path(alloc, &mut behind) {
        Ok(path) if takes_closer(&mut behind, Delim::Paren) => {
            *at = behind;
            Ok(Vis::In(path))
        }
        Err(ReadNone::NoMemory) => Err(ReadNone::NoMemory),
        _ => Ok(Vis::Public),
    }
}
