//! Made by scripts/rust.sh from crates/lay_read_branches/src/heads.rt, which is proved: change that.
//!
//! Parsing of expressions that begin with a block, with a word before one, or with a label, and of
//! closures.
use crate::generated::lay_read_branches::rules::BranchRules;
use crate::generated::lay_code::{Block, Boxed, Expr, Item, Lifetime, Place, Site};
use crate::generated::lay_ops::operands::ExprLead;
use crate::generated::lay_read_blocks::BlockHeads;
use crate::generated::lay_read_parts::joins::{both, refused};
use crate::generated::lay_read_parts::parts::read_lifetime;
use crate::generated::lay_read_shared::boxes::boxed_found;
use crate::generated::lay_read_tokens::front::{
    is_at_keyword,
    is_at_opened,
    takes_keyword,
    takes_op,
};
use crate::generated::lay_read_tokens::{Ahead, Found, ReadNone};
use crate::generated::lay_token::Delim;
use crate::shims::Global;
impl<
    P: Fn(Global, &mut Ahead<'_>, Place, u32) -> Result<Found<Boxed<Expr>>, ReadNone>
        + Copy,
    B: Fn(Global, &mut Ahead<'_>, u32) -> Result<Found<Block>, ReadNone>,
    I: Fn(Global, &mut Ahead<'_>, Site, u32) -> Result<Found<Item>, ReadNone>,
> BranchRules<P, B, I> {
    /// Parses an expression that contains a block, or a closure, by its first token, unless it is
    /// nested too deep.
    #[inline(never)]
    pub fn block_head(
        &self,
        at: &mut Ahead<'_>,
        no_struct: bool,
        lead: ExprLead,
    ) -> Result<Found<Boxed<Expr>>, ReadNone> {
        match lead {
            ExprLead::Label => self.label_expr(at),
            ExprLead::Brace => self.labelled_expr(at, None),
            ExprLead::BlockWord => self.block_word_expr(at),
            ExprLead::Closure => self.rules.closure_expr(at, no_struct),
            _ => Err(ReadNone::NoReading),
        }
    }
    /// Parses a block or a loop after its label.
    #[inline(never)]
    fn label_expr(&self, at: &mut Ahead<'_>) -> Result<Found<Boxed<Expr>>, ReadNone> {
        let label = read_lifetime(self.rules.alloc, at)?;
        if !takes_op(at, b":") {
            return refused(label);
        }
        self.labelled_expr(at, Some(label))
    }
    /// Parses a block or a loop, after its label if it has one.
    #[inline(never)]
    fn labelled_expr(
        &self,
        at: &mut Ahead<'_>,
        label: Option<Lifetime>,
    ) -> Result<Found<Boxed<Expr>>, ReadNone> {
        if is_at_opened(at, Delim::Brace) {
            let (label, body) = both(label, self.rules.block_by(at))?;
            return boxed_found(
                self.rules.alloc,
                Expr::Block { label, body: body.node },
                body.need + 1,
            );
        }
        if takes_keyword(at, b"loop") {
            let (label, body) = both(label, self.rules.block_by(at))?;
            return boxed_found(
                self.rules.alloc,
                Expr::Loop { label, body: body.node },
                body.need + 1,
            );
        }
        if takes_keyword(at, b"while") {
            return self.while_expr(at, label);
        }
        if takes_keyword(at, b"for") {
            return self.for_expr(at, label);
        }
        refused(label)
    }
    /// Parses an expression that contains a block and begins with a word.
    #[inline(never)]
    fn block_word_expr(
        &self,
        at: &mut Ahead<'_>,
    ) -> Result<Found<Boxed<Expr>>, ReadNone> {
        if is_at_keyword(at, b"unsafe") || is_at_keyword(at, b"const")
            || is_at_keyword(at, b"async") {
            return self.worded_block(at);
        }
        self.worded(at)
    }
    /// Parses a block after its `unsafe`, `const` or `async`.
    #[inline(never)]
    fn worded_block(&self, at: &mut Ahead<'_>) -> Result<Found<Boxed<Expr>>, ReadNone> {
        if takes_keyword(at, b"unsafe") {
            let body = self.rules.block_by(at)?;
            return boxed_found(
                self.rules.alloc,
                Expr::Unsafe { body: body.node },
                body.need + 1,
            );
        }
        if takes_keyword(at, b"const") {
            let body = self.rules.block_by(at)?;
            return boxed_found(
                self.rules.alloc,
                Expr::ConstBlock { body: body.node },
                body.need + 1,
            );
        }
        if takes_keyword(at, b"async") {
            let moves = takes_keyword(at, b"move");
            let body = self.rules.block_by(at)?;
            return boxed_found(
                self.rules.alloc,
                Expr::Async { moves, body: body.node },
                body.need + 1,
            );
        }
        Err(ReadNone::NoReading)
    }
    /// Parses an `if`, a `match` or a loop.
    #[inline(always)]
    fn worded(&self, at: &mut Ahead<'_>) -> Result<Found<Boxed<Expr>>, ReadNone> {
        if takes_keyword(at, b"if") {
            return self.if_expr(at);
        }
        if takes_keyword(at, b"match") {
            return self.rules.match_expr(at);
        }
        self.labelled_expr(at, None)
    }
}
impl<
    P: Fn(Global, &mut Ahead<'_>, Place, u32) -> Result<Found<Boxed<Expr>>, ReadNone>
        + Copy,
    B: Fn(Global, &mut Ahead<'_>, u32) -> Result<Found<Block>, ReadNone>,
    I: Fn(Global, &mut Ahead<'_>, Site, u32) -> Result<Found<Item>, ReadNone>,
> BlockHeads for BranchRules<P, B, I> {
    fn block_head(
        &self,
        at: &mut Ahead<'_>,
        no_struct: bool,
        lead: ExprLead,
    ) -> Result<Found<Boxed<Expr>>, ReadNone> {
        BranchRules::block_head(self, at, no_struct, lead)
    }
}
