//! Made by scripts/rust.sh from crates/lay_read_pats/src/reads.rt, which is proved: change that.
//!
//! The public readers of patterns.
use crate::generated::lay_read_pats::pats::pat_ahead;
use crate::generated::lay_nest::Cursor;
use crate::generated::lay_node::{Pat, PatPlace};
use crate::generated::lay_read_tokens::{Ahead, ReadNone};
use crate::shims::Global;
/// Parses the next pattern, which may be an alternation, within `depth` levels. On an error the
/// cursor doesn't move.
pub fn read_pat(
    alloc: Global,
    at: &mut Cursor<'_>,
    depth: u32,
) -> Result<Pat, ReadNone> {
    read_at(alloc, at, PatPlace::Alternatives, depth)
}
/// Parses the next pattern that is no alternation, within `depth` levels. On an error the cursor
/// doesn't move.
pub fn read_pat_no_alt(
    alloc: Global,
    at: &mut Cursor<'_>,
    depth: u32,
) -> Result<Pat, ReadNone> {
    read_at(alloc, at, PatPlace::Single, depth)
}
/// Parses the next pattern at its place, within `depth` levels. On an error the cursor doesn't
/// move.
fn read_at(
    alloc: Global,
    at: &mut Cursor<'_>,
    place: PatPlace,
    depth: u32,
) -> Result<Pat, ReadNone> {
    let mut ahead = Ahead::new(at.fork());
    let found = pat_ahead(alloc, &mut ahead, place, depth)?;
    *at = ahead.into_cursor();
    Ok(found.node)
}
