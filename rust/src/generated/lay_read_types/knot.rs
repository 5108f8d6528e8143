//! Made by scripts/rust.sh from crates/lay_read_types/src/knot.rt, which is proved: change that.
//!
//! The recursion: types, and what contains them, within a depth limit.
use crate::generated::lay_read_types::rules::Rules;
use crate::generated::lay_node::{
    Args,
    Bound,
    Constraint,
    Path,
    PathStyle,
    Ty,
    TypePlace,
};
use crate::generated::lay_read_tokens::{Ahead, Found, ReadNone};
use crate::generated::lay_token::List;
use crate::shims::Global;
/// Parses a type at a place. What it contains fits in `depth` levels.
pub fn type_ahead(
    alloc: Global,
    at: &mut Ahead<'_>,
    place: TypePlace,
    depth: u32,
) -> Result<Found<Ty>, ReadNone> {
    if depth == 0 {
        return Err(ReadNone::NoReading);
    }
    let rules = Rules {
        alloc,
        depth: depth - 1,
        types: type_ahead,
        constraints: constraint_ahead,
    };
    rules.type_by(at, place)
}
/// Parses the constraint of a name among generic arguments, within `depth` levels.
pub fn constraint_ahead(
    alloc: Global,
    at: &mut Ahead<'_>,
    depth: u32,
) -> Result<Found<Constraint>, ReadNone> {
    if depth == 0 {
        return Err(ReadNone::NoReading);
    }
    let rules = Rules {
        alloc,
        depth: depth - 1,
        types: type_ahead,
        constraints: constraint_ahead,
    };
    rules.constraint(at)
}
/// Parses a path. What it contains fits in `depth` levels.
pub fn path_ahead(
    alloc: Global,
    at: &mut Ahead<'_>,
    style: PathStyle,
    depth: u32,
) -> Result<Found<Path>, ReadNone> {
    let rules = Rules { alloc, depth, types: type_ahead, constraints: constraint_ahead };
    rules.path(at, style)
}
/// Parses generic arguments. What they contain fits in `depth` levels.
pub fn args_ahead(
    alloc: Global,
    at: &mut Ahead<'_>,
    style: PathStyle,
    depth: u32,
) -> Result<Found<Args>, ReadNone> {
    let rules = Rules { alloc, depth, types: type_ahead, constraints: constraint_ahead };
    rules.args(at, style)
}
/// Parses one or more bounds. Everything nested in them fits in `depth` levels.
pub fn bounds_ahead(
    alloc: Global,
    at: &mut Ahead<'_>,
    depth: u32,
) -> Result<Found<List<Bound>>, ReadNone> {
    let rules = Rules { alloc, depth, types: type_ahead, constraints: constraint_ahead };
    rules.all_bounds(at)
}
