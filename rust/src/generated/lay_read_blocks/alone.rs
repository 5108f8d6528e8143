//! Made by scripts/rust.sh from crates/lay_read_blocks/src/alone.rt, which is proved: change that.
//!
//! Parsing of statements and arms that stand alone.
use crate::generated::lay_read_blocks::rules::BlockRules;
use crate::generated::lay_code::{Arm, Block, Boxed, Expr, Item, Place, Site, Stmt};
use crate::generated::lay_ops::ends;
use crate::generated::lay_read_parts::joins::refused;
use crate::generated::lay_read_tokens::front::takes_mark;
use crate::generated::lay_read_tokens::{Ahead, Found, ReadNone};
use crate::shims::Global;
/// Moves past the comma of an arm that stands alone, and says whether the arm ends there. The comma
/// may be missing if `free`, or if no token follows.
fn takes_alone_end(at: &mut Ahead<'_>, free: bool) -> bool {
    takes_mark(at, b",") || free || at.is_end()
}
impl<
    P: Fn(Global, &mut Ahead<'_>, Place, u32) -> Result<Found<Boxed<Expr>>, ReadNone>,
    B: Fn(Global, &mut Ahead<'_>, u32) -> Result<Found<Block>, ReadNone>,
    I: Fn(Global, &mut Ahead<'_>, Site, u32) -> Result<Found<Item>, ReadNone>,
> BlockRules<P, B, I> {
    /// Parses a statement that ends by itself or that no token follows. It counts one level more
    /// than what is around it.
    pub fn deeper_stmt(&self, at: &mut Ahead<'_>) -> Result<Found<Stmt>, ReadNone> {
        let found = self.stmt_by(at)?;
        if !(ends(&found.node) || at.is_end()) {
            return refused(found);
        }
        Ok(Found { need: found.need + 1, node: found.node })
    }
    /// Parses an arm with its comma, if it has one, unless it is nested too deep. It counts one
    /// level more than what is around it.
    pub fn deeper_arm(&self, at: &mut Ahead<'_>) -> Result<Found<Arm>, ReadNone> {
        let Found { node, need } = self.arm_begun(at)?;
        let (arm, free) = node;
        if !takes_alone_end(at, free) || need > self.depth {
            return refused(arm);
        }
        Ok(Found { need: need + 1, node: arm })
    }
}
