//! Made by scripts/rust.sh from crates/lay_read_blocks/src/stmts.rt, which is proved: change that.
//!
//! Parsing of statements.
use crate::generated::lay_read_blocks::front::begins_item;
use crate::generated::lay_read_blocks::rules::BlockRules;
use crate::generated::lay_code::{
    Attr,
    Block,
    Boxed,
    Expr,
    Item,
    Pat,
    PatPlace,
    Place,
    Site,
    Stmt,
    Ty,
};
use crate::generated::lay_ops::is_call;
use crate::generated::lay_ops::places::STATEMENT;
use crate::generated::lay_ops_ends::may_precede_else;
use crate::generated::lay_read_parts::joins::{both, refused};
use crate::generated::lay_read_pats::pat_ahead;
use crate::generated::lay_read_shared::types::type_if;
use crate::generated::lay_read_tokens::attributes::attrs_ahead;
use crate::generated::lay_read_tokens::found::greater;
use crate::generated::lay_read_tokens::front::{takes_keyword, takes_mark};
use crate::generated::lay_read_tokens::stop::boxed;
use crate::generated::lay_read_tokens::{Ahead, Found, ReadNone};
use crate::generated::lay_token::List;
use crate::shims::Global;
/// Whether an `else` may stand after this value, if there is an `else`.
fn else_stands(value: &Option<Boxed<Expr>>, otherwise: bool) -> bool {
    if !otherwise {
        return true;
    }
    match value {
        Some(value) => may_precede_else(value.get()),
        None => false,
    }
}
/// Parses the pattern of a `let`, and its type if it has one.
#[inline(never)]
fn let_head(
    alloc: Global,
    at: &mut Ahead<'_>,
    depth: u32,
) -> Result<Found<(Pat, Option<Ty>)>, ReadNone> {
    let pat = pat_ahead(alloc, at, PatPlace::Single, depth)?;
    let (pat, ty) = both(pat, type_if(alloc, at, b":", depth))?;
    Ok(Found { need: greater(pat.need, ty.need), node: (pat.node, ty.node) })
}
/// A `let` statement of its parts. It is a function of its own, so that the caller's frame has no
/// room for these moves while the value is read.
#[inline(never)]
fn let_of(
    attrs: List<Attr>,
    head: Found<(Pat, Option<Ty>)>,
    behind: Result<Found<(Option<Boxed<Expr>>, Option<Block>)>, ReadNone>,
) -> Result<Found<Stmt>, ReadNone> {
    let (head, behind) = both(head, behind)?;
    let (pat, ty) = head.node;
    let (value, otherwise) = behind.node;
    Ok(
        Found {
            need: greater(head.need, behind.need),
            node: Stmt::Let { attrs, pat, ty, value, otherwise },
        },
    )
}
impl<
    P: Fn(Global, &mut Ahead<'_>, Place, u32) -> Result<Found<Boxed<Expr>>, ReadNone>,
    B: Fn(Global, &mut Ahead<'_>, u32) -> Result<Found<Block>, ReadNone>,
    I: Fn(Global, &mut Ahead<'_>, Site, u32) -> Result<Found<Item>, ReadNone>,
> BlockRules<P, B, I> {
    /// Parses a statement.
    #[inline(always)]
    pub fn stmt_by(&self, at: &mut Ahead<'_>) -> Result<Found<Stmt>, ReadNone> {
        let begun = at.fork();
        let attrs = attrs_ahead(self.alloc, at, false)?;
        if takes_keyword(at, b"let") {
            return self.let_stmt(at, attrs);
        }
        if !begins_item(at) {
            return self.expr_stmt(at, attrs);
        }
        *at = begun;
        self.item_stmt(at)
    }
    /// Parses an item that is no macro call.
    #[inline(never)]
    fn item_stmt(&self, at: &mut Ahead<'_>) -> Result<Found<Stmt>, ReadNone> {
        let found = (self.items)(self.alloc, at, Site::Module, self.depth)?;
        if is_call(&found.node) {
            return refused(found);
        }
        let item = boxed(self.alloc, found.node)?;
        Ok(Found { node: Stmt::Item { item }, need: found.need })
    }
    /// Parses an expression, and its `;` if it has one.
    #[inline(never)]
    fn expr_stmt(
        &self,
        at: &mut Ahead<'_>,
        attrs: List<Attr>,
    ) -> Result<Found<Stmt>, ReadNone> {
        let (attrs, found) = both(attrs, self.expr(at, STATEMENT))?;
        let ended = takes_mark(at, b";");
        Ok(
            Found {
                need: found.need,
                node: Stmt::Expr { attrs, expr: found.node, ended },
            },
        )
    }
    /// Parses a `let` statement after its `let`.
    #[inline(never)]
    fn let_stmt(
        &self,
        at: &mut Ahead<'_>,
        attrs: List<Attr>,
    ) -> Result<Found<Stmt>, ReadNone> {
        match let_head(self.alloc, at, self.depth) {
            Ok(head) => {
                let behind = self.let_behind(at);
                let_of(attrs, head, behind)
            }
            Err(none) => Err(none),
        }
    }
    /// Parses a `let` statement after its pattern and type: a value and an `else` with its block,
    /// if they come next, and a `;`.
    #[inline(never)]
    fn let_behind(
        &self,
        at: &mut Ahead<'_>,
    ) -> Result<Found<(Option<Boxed<Expr>>, Option<Block>)>, ReadNone> {
        let value = self.value_if(at)?;
        let (value, otherwise) = both(value, self.else_if(at))?;
        if !takes_mark(at, b";") || !else_stands(&value.node, otherwise.node.is_some()) {
            return refused((value, otherwise));
        }
        Ok(
            Found {
                need: greater(value.need, otherwise.need),
                node: (value.node, otherwise.node),
            },
        )
    }
    /// Parses the block after an `else`, if one comes next.
    #[inline(never)]
    fn else_if(&self, at: &mut Ahead<'_>) -> Result<Found<Option<Block>>, ReadNone> {
        if !takes_keyword(at, b"else") {
            return Ok(Found { node: None, need: 0 });
        }
        let block = (self.blocks)(self.alloc, at, self.depth)?;
        Ok(Found { node: Some(block.node), need: block.need })
    }
}
