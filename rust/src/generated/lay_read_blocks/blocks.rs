//! Made by scripts/rust.sh from crates/lay_read_blocks/src/blocks.rt, which is proved: change that.
//!
//! Parsing of blocks.
use crate::generated::lay_read_blocks::front::pass_semicolons;
use crate::generated::lay_read_blocks::rules::BlockRules;
use crate::generated::lay_code::{Block, Boxed, Expr, Item, Place, Site, Stmt};
use crate::generated::lay_ops::ends;
use crate::generated::lay_read_parts::joins::{both, refused};
use crate::generated::lay_read_parts::loops::Part;
use crate::generated::lay_read_shared::loops::{Going, read_parts};
use crate::generated::lay_read_tokens::attributes::attrs_ahead;
use crate::generated::lay_read_tokens::front::{
    is_at_closer,
    is_at_opened,
    takes_closer,
    takes_mark,
    takes_opener,
};
use crate::generated::lay_read_tokens::{Ahead, Found, ReadNone};
use crate::generated::lay_token::{Delim, List};
use crate::shims::Global;
/// Statements of a block as consecutive parts.
pub struct Stmts;
impl Part<Stmt, ()> for Stmts {}
impl<
    P: Fn(Global, &mut Ahead<'_>, Place, u32) -> Result<Found<Boxed<Expr>>, ReadNone>,
    B: Fn(Global, &mut Ahead<'_>, u32) -> Result<Found<Block>, ReadNone>,
    I: Fn(Global, &mut Ahead<'_>, Site, u32) -> Result<Found<Item>, ReadNone>,
> BlockRules<P, B, I> {
    /// Parses a block.
    #[inline(never)]
    pub fn block_by(&self, at: &mut Ahead<'_>) -> Result<Found<Block>, ReadNone> {
        if !takes_opener(at, Delim::Brace) {
            return Err(ReadNone::NoReading);
        }
        let attrs = attrs_ahead(self.alloc, at, true)?;
        pass_semicolons(at);
        let (attrs, stmts) = both(attrs, self.stmts(at))?;
        if !takes_closer(at, Delim::Brace) {
            return refused((attrs, stmts));
        }
        Ok(Found { need: stmts.need, node: Block { attrs, stmts: stmts.node } })
    }
    /// Parses a block that counts one level more than what is around it.
    #[inline(never)]
    pub fn deeper_block(&self, at: &mut Ahead<'_>) -> Result<Found<Block>, ReadNone> {
        let found = self.block_by(at)?;
        Ok(Found { need: found.need + 1, node: found.node })
    }
    /// Parses the body of a function, or the `;` where it has none.
    #[inline(never)]
    pub fn fn_body(&self, at: &mut Ahead<'_>) -> Result<Found<Option<Block>>, ReadNone> {
        if is_at_opened(at, Delim::Brace) {
            let block = self.block_by(at)?;
            Ok(Found { node: Some(block.node), need: block.need })
        } else if takes_mark(at, b";") { Ok(Found { node: None, need: 0 }) } else {
            Err(ReadNone::NoReading)
        }
    }
    /// Parses statements up to the end of the block.
    #[inline(never)]
    fn stmts(&self, at: &mut Ahead<'_>) -> Result<Found<List<Stmt>>, ReadNone> {
        read_parts::<
            Stmts,
            BlockRules<P, B, I>,
            Stmt,
            (),
            _,
        >(self.alloc, at, self.depth, Going::Items, self, BlockRules::stmt_in_block, ())
    }
    /// Parses a statement of a block, and the `;` after it. One that doesn't end by itself is the
    /// last.
    #[inline(never)]
    fn stmt_in_block(
        &self,
        at: &mut Ahead<'_>,
        _place: (),
    ) -> Result<Found<Stmt>, ReadNone> {
        let found = self.stmt_by(at)?;
        if !(ends(&found.node) || is_at_closer(at, Delim::Brace)) {
            return refused(found);
        }
        pass_semicolons(at);
        Ok(found)
    }
}
