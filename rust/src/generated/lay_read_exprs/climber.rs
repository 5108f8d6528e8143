//! Made by scripts/rust.sh from crates/lay_read_exprs/src/climber.rt, which is proved: change that.
//!
//! Parsing of expressions: an operand, and the operators after it.
use crate::generated::lay_code::{Boxed, Expr, Place};
use crate::generated::lay_read_blocks::BlockHeads;
use crate::generated::lay_read_operators::ExprRules;
use crate::generated::lay_read_operators::climb::{accepted, is_ended};
use crate::generated::lay_read_tokens::{Ahead, Found, ReadNone};
use crate::shims::Global;
/// The rules of expressions of one level, with a reader of those that begin with a block.
pub struct Climber<P, H> {
    pub rules: ExprRules<P>,
    /// The reader of closures and of expressions that begin with a block.
    pub heads: H,
}
impl<
    P: Fn(Global, &mut Ahead<'_>, Place, u32) -> Result<Found<Boxed<Expr>>, ReadNone>,
    H: BlockHeads,
> Climber<P, H> {
    /// Parses an expression at a place. What it contains is parsed at the next deeper level.
    #[inline(never)]
    pub fn expr_by(
        &self,
        at: &mut Ahead<'_>,
        place: Place,
    ) -> Result<Found<Boxed<Expr>>, ReadNone> {
        let head = self.head(at, place.no_struct)?;
        if is_ended(at, place, head.node.get()) {
            accepted(at, place, head, self.rules.depth + 1)
        } else { self.rules.climb(at, place, 14, head) }
    }
}
