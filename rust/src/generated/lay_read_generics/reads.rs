//! Made by scripts/rust.sh from crates/lay_read_generics/src/reads.rt, which is proved: change that.
//!
//! The public readers of generic parameters and where clauses.
use crate::generated::lay_read_generics::level::{generics_ahead, wheres_ahead};
use crate::generated::lay_nest::Cursor;
use crate::generated::lay_node::{Generics, Wheres};
use crate::generated::lay_read_tokens::{Ahead, ReadNone};
use crate::shims::Global;
/// Parses the next generic parameters, which may be none, within `depth` levels, of which they take
/// one. On an error the cursor doesn't move.
pub fn read_generics(
    alloc: Global,
    at: &mut Cursor<'_>,
    depth: u32,
) -> Result<Generics, ReadNone> {
    if depth == 0 {
        return Err(ReadNone::NoReading);
    }
    let mut ahead = Ahead::new(at.fork());
    let found = generics_ahead(alloc, &mut ahead, depth - 1)?;
    *at = ahead.into_cursor();
    Ok(found.node.0)
}
/// Parses the next where clause, which may be none, within `depth` levels, of which it takes one.
/// On an error the cursor doesn't move.
pub fn read_wheres(
    alloc: Global,
    at: &mut Cursor<'_>,
    depth: u32,
) -> Result<Wheres, ReadNone> {
    if depth == 0 {
        return Err(ReadNone::NoReading);
    }
    let mut ahead = Ahead::new(at.fork());
    let found = wheres_ahead(alloc, &mut ahead, depth - 1)?;
    *at = ahead.into_cursor();
    Ok(found.node.0)
}
