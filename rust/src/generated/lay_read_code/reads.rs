//! Made by scripts/rust.sh from crates/lay_read_code/src/reads.rt, which is proved: change that.
//!
//! The public readers of expressions, items, blocks, statements and arms.
use crate::generated::lay_read_code::knot::{block_ahead, expr_ahead, item_ahead};
use crate::generated::lay_code::{Arm, Block, Expr, Item, Place, Site, Stmt};
use crate::generated::lay_nest::Cursor;
use crate::generated::lay_read_blocks::BlockRules;
use crate::generated::lay_read_tokens::{Ahead, Found, ReadNone};
use crate::shims::Global;
/// Parses the next expression, at its place and within `depth` levels. On an error the cursor
/// doesn't move.
pub fn read_expr(
    alloc: Global,
    at: &mut Cursor<'_>,
    place: Place,
    depth: u32,
) -> Result<Expr, ReadNone> {
    let mut ahead = Ahead::new(at.fork());
    let found = expr_ahead(alloc, &mut ahead, place, depth)?;
    *at = ahead.into_cursor();
    Ok(found.node.into_inner())
}
/// Parses the next item, at its site and within `depth` levels. On an error the cursor doesn't
/// move.
pub fn read_item(
    alloc: Global,
    at: &mut Cursor<'_>,
    site: Site,
    depth: u32,
) -> Result<Item, ReadNone> {
    let mut ahead = Ahead::new(at.fork());
    let found = item_ahead(alloc, &mut ahead, site, depth)?;
    *at = ahead.into_cursor();
    Ok(found.node)
}
/// Parses the next block, within `depth` levels, of which it takes one. On an error the cursor
/// doesn't move.
pub fn read_block(
    alloc: Global,
    at: &mut Cursor<'_>,
    depth: u32,
) -> Result<Block, ReadNone> {
    let mut ahead = Ahead::new(at.fork());
    let found = block_ahead(alloc, &mut ahead, depth)?;
    *at = ahead.into_cursor();
    Ok(found.node)
}
/// Parses the next statement, within `depth` levels, of which it takes one. An expression without a
/// `;` counts as a statement only if no token follows, or if it is block-like or a macro call in
/// braces. On an error the cursor doesn't move.
pub fn read_stmt(
    alloc: Global,
    at: &mut Cursor<'_>,
    depth: u32,
) -> Result<Stmt, ReadNone> {
    let mut ahead = Ahead::new(at.fork());
    let found = stmt_ahead(alloc, &mut ahead, depth)?;
    *at = ahead.into_cursor();
    Ok(found.node)
}
/// Parses the next arm of a match, within `depth` levels, of which it takes one. A comma that
/// follows belongs to it; the comma may be left out if its body allows that, or if no token
/// follows. On an error the cursor doesn't move.
pub fn read_arm(
    alloc: Global,
    at: &mut Cursor<'_>,
    depth: u32,
) -> Result<Arm, ReadNone> {
    let mut ahead = Ahead::new(at.fork());
    let found = arm_ahead(alloc, &mut ahead, depth)?;
    *at = ahead.into_cursor();
    Ok(found.node)
}
/// Parses a statement that stands alone, within `depth` levels.
fn stmt_ahead(
    alloc: Global,
    at: &mut Ahead<'_>,
    depth: u32,
) -> Result<Found<Stmt>, ReadNone> {
    if depth == 0 {
        return Err(ReadNone::NoReading);
    }
    let rules = BlockRules {
        alloc,
        depth: depth - 1,
        exprs: expr_ahead,
        blocks: block_ahead,
        items: item_ahead,
    };
    rules.deeper_stmt(at)
}
/// Parses an arm that stands alone, within `depth` levels.
fn arm_ahead(
    alloc: Global,
    at: &mut Ahead<'_>,
    depth: u32,
) -> Result<Found<Arm>, ReadNone> {
    if depth == 0 {
        return Err(ReadNone::NoReading);
    }
    let rules = BlockRules {
        alloc,
        depth: depth - 1,
        exprs: expr_ahead,
        blocks: block_ahead,
        items: item_ahead,
    };
    rules.deeper_arm(at)
}
