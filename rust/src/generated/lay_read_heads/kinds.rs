//! Made by scripts/rust.sh from crates/lay_read_heads/src/kinds.rt, which is proved: change that.
//!
//! The public readers of items that consist of a head alone.
use crate::generated::lay_code::{ItemKind, Site};
use crate::generated::lay_nest::Cursor;
use crate::generated::lay_read_head_rules::heads::{
    alias_ahead,
    enum_ahead,
    extern_crate_ahead,
    struct_ahead,
    union_ahead,
};
use crate::generated::lay_read_tokens::front::is_at_keyword;
use crate::generated::lay_read_tokens::{Ahead, ReadNone};
use crate::shims::Global;
/// Parses the next struct or union, within `depth` levels, of which it takes one. On an error the
/// cursor doesn't move.
pub fn read_struct(
    alloc: Global,
    at: &mut Cursor<'_>,
    depth: u32,
) -> Result<ItemKind, ReadNone> {
    let ahead = Ahead::new(at.fork());
    if is_at_keyword(&ahead, b"union") { read_union_alone(alloc, at, depth) } else {
        read_struct_alone(alloc, at, depth)
    }
}
/// Parses the next struct.
fn read_struct_alone(
    alloc: Global,
    at: &mut Cursor<'_>,
    depth: u32,
) -> Result<ItemKind, ReadNone> {
    if depth == 0 {
        return Err(ReadNone::NoReading);
    }
    let mut ahead = Ahead::new(at.fork());
    let found = struct_ahead(alloc, &mut ahead, depth - 1)?;
    *at = ahead.into_cursor();
    Ok(ItemKind::Struct { item: found.node })
}
/// Parses the next union.
fn read_union_alone(
    alloc: Global,
    at: &mut Cursor<'_>,
    depth: u32,
) -> Result<ItemKind, ReadNone> {
    if depth == 0 {
        return Err(ReadNone::NoReading);
    }
    let mut ahead = Ahead::new(at.fork());
    let found = union_ahead(alloc, &mut ahead, depth - 1)?;
    *at = ahead.into_cursor();
    Ok(ItemKind::Union { item: found.node })
}
/// Parses the next enumeration, within `depth` levels, of which it takes one. On an error the
/// cursor doesn't move.
pub fn read_enum(
    alloc: Global,
    at: &mut Cursor<'_>,
    depth: u32,
) -> Result<ItemKind, ReadNone> {
    if depth == 0 {
        return Err(ReadNone::NoReading);
    }
    let mut ahead = Ahead::new(at.fork());
    let found = enum_ahead(alloc, &mut ahead, depth - 1)?;
    *at = ahead.into_cursor();
    Ok(ItemKind::Enum { item: found.node })
}
/// Parses the next type alias, as it may be at this site, within `depth` levels, of which it takes
/// one. On an error the cursor doesn't move.
pub fn read_alias(
    alloc: Global,
    at: &mut Cursor<'_>,
    site: Site,
    depth: u32,
) -> Result<ItemKind, ReadNone> {
    if depth == 0 {
        return Err(ReadNone::NoReading);
    }
    let mut ahead = Ahead::new(at.fork());
    let found = alias_ahead(alloc, &mut ahead, site, depth - 1)?;
    *at = ahead.into_cursor();
    Ok(ItemKind::Alias { item: found.node })
}
/// Parses the next extern crate declaration. On an error the cursor doesn't move.
pub fn read_extern_crate(
    alloc: Global,
    at: &mut Cursor<'_>,
) -> Result<ItemKind, ReadNone> {
    let mut ahead = Ahead::new(at.fork());
    let item = extern_crate_ahead(alloc, &mut ahead)?;
    *at = ahead.into_cursor();
    Ok(ItemKind::ExternCrate { item })
}
