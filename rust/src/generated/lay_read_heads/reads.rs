//! Made by scripts/rust.sh from crates/lay_read_heads/src/reads.rt, which is proved: change that.
//!
//! The public readers of visibilities, use trees, and the heads of items.
use crate::generated::lay_code::{
    FnHead,
    ImplHead,
    Site,
    TraitHead,
    UseTree,
    ValueHead,
    Vis,
};
use crate::generated::lay_nest::Cursor;
use crate::generated::lay_read_head_rules::functions::fn_head_ahead;
use crate::generated::lay_read_head_rules::heads::{
    impl_head_ahead,
    trait_head_ahead,
    value_head_ahead,
};
use crate::generated::lay_read_head_rules::uses::use_ahead;
use crate::generated::lay_read_head_rules::vis::vis_ahead;
use crate::generated::lay_read_tokens::{Ahead, ReadNone};
use crate::shims::Global;
/// Parses the next visibility, which may be nothing. On an error the cursor doesn't move.
pub fn read_vis(alloc: Global, at: &mut Cursor<'_>) -> Result<Vis, ReadNone> {
    let mut ahead = Ahead::new(at.fork());
    let vis = vis_ahead(alloc, &mut ahead)?;
    *at = ahead.into_cursor();
    Ok(vis)
}
/// Parses the next head of a function, as it may be at this site, within `depth` levels, of which
/// it takes one. On an error the cursor doesn't move.
pub fn read_fn_head(
    alloc: Global,
    at: &mut Cursor<'_>,
    site: Site,
    depth: u32,
) -> Result<FnHead, ReadNone> {
    if depth == 0 {
        return Err(ReadNone::NoReading);
    }
    let mut ahead = Ahead::new(at.fork());
    let found = fn_head_ahead(alloc, &mut ahead, site, depth - 1)?;
    *at = ahead.into_cursor();
    Ok(found.node)
}
/// Parses the head of a constant or of a static, within `depth` levels, of which it takes one. On
/// an error the cursor doesn't move.
pub fn read_value_head(
    alloc: Global,
    at: &mut Cursor<'_>,
    depth: u32,
) -> Result<ValueHead, ReadNone> {
    if depth == 0 {
        return Err(ReadNone::NoReading);
    }
    let mut ahead = Ahead::new(at.fork());
    let found = value_head_ahead(alloc, &mut ahead, depth - 1)?;
    *at = ahead.into_cursor();
    Ok(found.node)
}
/// Parses the head of a trait, within `depth` levels, of which it takes one. On an error the cursor
/// doesn't move.
pub fn read_trait_head(
    alloc: Global,
    at: &mut Cursor<'_>,
    depth: u32,
) -> Result<TraitHead, ReadNone> {
    if depth == 0 {
        return Err(ReadNone::NoReading);
    }
    let mut ahead = Ahead::new(at.fork());
    let found = trait_head_ahead(alloc, &mut ahead, depth - 1)?;
    *at = ahead.into_cursor();
    Ok(found.node.0)
}
/// Parses the head of an implementation, within `depth` levels, of which it takes one. On an error
/// the cursor doesn't move.
pub fn read_impl_head(
    alloc: Global,
    at: &mut Cursor<'_>,
    depth: u32,
) -> Result<ImplHead, ReadNone> {
    if depth == 0 {
        return Err(ReadNone::NoReading);
    }
    let mut ahead = Ahead::new(at.fork());
    let found = impl_head_ahead(alloc, &mut ahead, depth - 1)?;
    *at = ahead.into_cursor();
    Ok(found.node)
}
/// Parses the next use tree, within `depth` levels. On an error the cursor doesn't move.
pub fn read_use(
    alloc: Global,
    at: &mut Cursor<'_>,
    depth: u32,
) -> Result<UseTree, ReadNone> {
    let mut ahead = Ahead::new(at.fork());
    let found = use_ahead(alloc, &mut ahead, depth)?;
    *at = ahead.into_cursor();
    Ok(found.node)
}
