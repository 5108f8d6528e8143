//! Made by scripts/rust.sh from crates/lay_read_pats/src/pats.rt, which is proved: change that.
//!
//! The recursion: patterns at their places, within a depth limit.
use crate::generated::lay_read_pats::rules::PatRules;
use crate::generated::lay_node::{Pat, PatPlace};
use crate::generated::lay_read_parts::loops::{Joint, Part, read_chain};
use crate::generated::lay_read_tokens::front::takes_op;
use crate::generated::lay_read_tokens::{Ahead, Found, ReadNone};
use crate::generated::lay_token::List;
use crate::shims::Global;
/// The depth limit at which alternatives are read.
#[derive(Clone, Copy,)]
struct Level {
    alloc: Global,
    depth: u32,
}
/// Single patterns as the parts of an alternation.
struct Singles;
impl Part<Pat, ()> for Singles {}
/// Parses a pattern at its place, within `depth` levels.
pub fn pat_ahead(
    alloc: Global,
    at: &mut Ahead<'_>,
    place: PatPlace,
    depth: u32,
) -> Result<Found<Pat>, ReadNone> {
    match place {
        PatPlace::Single => single_ahead(alloc, at, depth),
        PatPlace::Alternatives => {
            takes_op(at, b"|");
            let found = alternatives(alloc, at, depth)?;
            alternatives_of(at, found, depth)
        }
    }
}
/// Parses a pattern that is no alternation, within `depth` levels.
pub fn single_ahead(
    alloc: Global,
    at: &mut Ahead<'_>,
    depth: u32,
) -> Result<Found<Pat>, ReadNone> {
    if depth == 0 {
        return Err(ReadNone::NoReading);
    }
    let rules = PatRules { alloc, depth: depth - 1, pats: pat_ahead };
    rules.single_by(at)
}
/// Parses one or more patterns with a `|` between them.
fn alternatives(
    alloc: Global,
    at: &mut Ahead<'_>,
    depth: u32,
) -> Result<Found<List<Pat>>, ReadNone> {
    let level = Level { alloc, depth };
    read_chain::<
        Singles,
        Level,
        Pat,
        (),
        _,
    >(alloc, at, depth, Joint::Bar, &level, one_alternative, ())
}
/// Parses one of the alternatives.
fn one_alternative(
    level: &Level,
    at: &mut Ahead<'_>,
    _place: (),
) -> Result<Found<Pat>, ReadNone> {
    single_ahead(level.alloc, at, level.depth)
}
/// The alternation of these patterns, which counts one level of depth more; or, if there is only
/// one, that pattern.
pub fn alternatives_of(
    at: &Ahead<'_>,
    found: Found<List<Pat>>,
    depth: u32,
) -> Result<Found<Pat>, ReadNone> {
    let Found { node, need } = found;
    let mut pats = node.into_vec();
    if pats.len() == 1 {
        return match pats.pop() {
            Some(node) => Ok(Found { node, need }),
            None => Err(ReadNone::NoReading),
        };
    }
    if need < depth {
        Ok(
            Found {
                node: Pat::Or { alternatives: List::from_vec(pats) },
                need: need + 1,
            },
        )
    } else { Err(ReadNone::NoReading) }
}
