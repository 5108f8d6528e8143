//! Made by scripts/rust.sh from crates/lay_read_types/src/reads.rt, which is proved: change that.
//!
//! The public readers of types, paths, generic arguments and bounds.
use crate::generated::lay_read_types::knot::{
    args_ahead,
    bounds_ahead,
    path_ahead,
    type_ahead,
};
use crate::generated::lay_nest::Cursor;
use crate::generated::lay_node::{Args, Bound, Path, PathStyle, Ty, TypePlace};
use crate::generated::lay_read_tokens::{Ahead, ReadNone};
use crate::generated::lay_token::List;
use crate::shims::Global;
/// Parses the next type, at `place` and within `depth` levels. On an error the cursor doesn't move.
pub fn read_type(
    alloc: Global,
    at: &mut Cursor<'_>,
    place: TypePlace,
    depth: u32,
) -> Result<Ty, ReadNone> {
    let mut ahead = Ahead::new(at.fork());
    let found = type_ahead(alloc, &mut ahead, place, depth)?;
    *at = ahead.into_cursor();
    Ok(found.node)
}
/// Parses the next path, with generic arguments in this style, within `depth` levels, of which the
/// path takes one. On an error the cursor doesn't move.
pub fn read_path(
    alloc: Global,
    at: &mut Cursor<'_>,
    style: PathStyle,
    depth: u32,
) -> Result<Path, ReadNone> {
    if depth == 0 {
        return Err(ReadNone::NoReading);
    }
    let mut ahead = Ahead::new(at.fork());
    let found = path_ahead(alloc, &mut ahead, style, depth - 1)?;
    *at = ahead.into_cursor();
    Ok(found.node)
}
/// Parses the next generic arguments, within `depth` levels, of which they take one; in an
/// expression they begin with `::`. On an error the cursor doesn't move.
pub fn read_args(
    alloc: Global,
    at: &mut Cursor<'_>,
    style: PathStyle,
    depth: u32,
) -> Result<Args, ReadNone> {
    if depth == 0 {
        return Err(ReadNone::NoReading);
    }
    let mut ahead = Ahead::new(at.fork());
    let found = args_ahead(alloc, &mut ahead, style, depth - 1)?;
    *at = ahead.into_cursor();
    Ok(found.node)
}
/// Parses the next bounds, as many as there are, within `depth` levels, of which they take one. On
/// an error the cursor doesn't move.
pub fn read_bounds(
    alloc: Global,
    at: &mut Cursor<'_>,
    depth: u32,
) -> Result<List<Bound>, ReadNone> {
    if depth == 0 {
        return Err(ReadNone::NoReading);
    }
    let mut ahead = Ahead::new(at.fork());
    let found = bounds_ahead(alloc, &mut ahead, depth - 1)?;
    *at = ahead.into_cursor();
    Ok(found.node)
}
