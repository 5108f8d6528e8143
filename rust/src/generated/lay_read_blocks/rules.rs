//! Made by scripts/rust.sh from crates/lay_read_blocks/src/rules.rt, which is proved: change that.
//!
//! The rules of blocks of one level, over the readers of the next deeper level.
use crate::generated::lay_code::{Block, Boxed, Expr, Item, Place, Site};
use crate::generated::lay_ops::places::FREE;
use crate::generated::lay_read_tokens::front::takes_op;
use crate::generated::lay_read_tokens::{Ahead, Found, ReadNone};
use crate::shims::Global;
/// The rules of blocks of one level, over the readers of the next deeper level: of expressions at a
/// place, of blocks after an `else`, and of items at a site.
pub struct BlockRules<P, B, I> {
    pub alloc: Global,
    /// The depth limit of the next deeper level.
    pub depth: u32,
    pub exprs: P,
    pub blocks: B,
    pub items: I,
}
impl<
    P: Fn(Global, &mut Ahead<'_>, Place, u32) -> Result<Found<Boxed<Expr>>, ReadNone>,
    B: Fn(Global, &mut Ahead<'_>, u32) -> Result<Found<Block>, ReadNone>,
    I: Fn(Global, &mut Ahead<'_>, Site, u32) -> Result<Found<Item>, ReadNone>,
> BlockRules<P, B, I> {
    /// Parses an expression of the next deeper level, and boxes it.
    #[inline(never)]
    pub fn expr(
        &self,
        at: &mut Ahead<'_>,
        place: Place,
    ) -> Result<Found<Boxed<Expr>>, ReadNone> {
        (self.exprs)(self.alloc, at, place, self.depth)
    }
    /// Parses a value after an `=`, if one comes next.
    pub fn value_if(
        &self,
        at: &mut Ahead<'_>,
    ) -> Result<Found<Option<Boxed<Expr>>>, ReadNone> {
        if !takes_op(at, b"=") {
            return Ok(Found { node: None, need: 0 });
        }
        let value = self.expr(at, FREE)?;
        Ok(Found { node: Some(value.node), need: value.need })
    }
}
