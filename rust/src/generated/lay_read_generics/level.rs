//! Made by scripts/rust.sh from crates/lay_read_generics/src/level.rt, which is proved: change that.
//!
//! The readers of generic parameters and where clauses at a depth limit.
use crate::generated::lay_node::{Generics, Wheres};
use crate::generated::lay_read_tokens::{Ahead, Found, ReadNone};
use crate::shims::Global;
/// The depth limit of what parameters and predicates contain.
pub struct Level {
    pub alloc: Global,
    pub depth: u32,
}
/// Parses generic parameters. What they contain fits in `depth` levels. The flag says that there
/// were `<` and `>`.
pub fn generics_ahead(
    alloc: Global,
    at: &mut Ahead<'_>,
    depth: u32,
) -> Result<Found<(Generics, bool)>, ReadNone> {
    let level = Level { alloc, depth };
    level.generics(at)
}
/// Parses a where clause, with everything in it within `depth` levels. The flag says that its last
/// predicate has a comma, or that it is a `where` without predicates.
pub fn wheres_ahead(
    alloc: Global,
    at: &mut Ahead<'_>,
    depth: u32,
) -> Result<Found<(Wheres, bool)>, ReadNone> {
    let level = Level { alloc, depth };
    level.wheres(at)
}
