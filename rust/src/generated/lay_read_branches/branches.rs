//! Made by scripts/rust.sh from crates/lay_read_branches/src/branches.rt, which is proved: change that.
//!
//! Parsing of branches, and of the expressions with conditions.
use crate::generated::lay_read_branches::rules::BranchRules;
use crate::generated::lay_code::{
    Block,
    Boxed,
    Branch,
    Expr,
    Item,
    Lifetime,
    PatPlace,
    Place,
    Site,
};
use crate::generated::lay_ops::places::plain;
use crate::generated::lay_read_parts::joins::{both, prepended, refused};
use crate::generated::lay_read_parts::loops::Part;
use crate::generated::lay_read_pats::pat_ahead;
use crate::generated::lay_read_shared::boxes::boxed_found;
use crate::generated::lay_read_shared::loops::{Going, read_parts};
use crate::generated::lay_read_tokens::found::greater;
use crate::generated::lay_read_tokens::front::{pass_two, takes_keyword, takes_op};
use crate::generated::lay_read_tokens::{Ahead, Found, ReadNone};
use crate::generated::lay_token::List;
use crate::shims::Global;
/// Branches after `else if` as consecutive parts.
pub struct Branches;
impl Part<Branch, ()> for Branches {}
/// A branch and those after it, in one list. It is a function of its own, so that the caller's
/// frame has no room for these moves while branches are read.
#[inline(never)]
fn branches_of(
    first: Found<Branch>,
    more: Result<Found<List<Branch>>, ReadNone>,
) -> Result<Found<List<Branch>>, ReadNone> {
    let (first, more) = both(first, more)?;
    let need = greater(first.need, more.need);
    let node = prepended(first.node, more.node)?;
    Ok(Found { node, need })
}
impl<
    P: Fn(Global, &mut Ahead<'_>, Place, u32) -> Result<Found<Boxed<Expr>>, ReadNone>
        + Copy,
    B: Fn(Global, &mut Ahead<'_>, u32) -> Result<Found<Block>, ReadNone>,
    I: Fn(Global, &mut Ahead<'_>, Site, u32) -> Result<Found<Item>, ReadNone>,
> BranchRules<P, B, I> {
    /// Parses a branch after its `if`.
    #[inline(never)]
    pub fn branch_by(&self, at: &mut Ahead<'_>) -> Result<Found<Branch>, ReadNone> {
        let condition = self.condition_by(at)?;
        let (condition, body) = both(condition, self.rules.block_by(at))?;
        Ok(
            Found {
                need: greater(condition.need, body.need),
                node: Branch { condition: condition.node, body: body.node },
            },
        )
    }
    /// Parses a branch after its `else if`.
    #[inline(never)]
    fn else_branch(
        &self,
        at: &mut Ahead<'_>,
        _place: (),
    ) -> Result<Found<Branch>, ReadNone> {
        pass_two(at);
        self.branch_by(at)
    }
    /// Parses the block after an `else`, if one comes next. It counts as many levels as the blocks
    /// of the branches.
    #[inline(never)]
    fn otherwise(&self, at: &mut Ahead<'_>) -> Result<Found<Option<Block>>, ReadNone> {
        if !takes_keyword(at, b"else") {
            return Ok(Found { node: None, need: 0 });
        }
        let block = self.rules.block_by(at)?;
        Ok(Found { node: Some(block.node), need: block.need })
    }
    /// Parses the first branch after its `if`, and the branches after `else if`.
    #[inline(never)]
    fn branches(&self, at: &mut Ahead<'_>) -> Result<Found<List<Branch>>, ReadNone> {
        match self.branch_by(at) {
            Ok(first) => {
                let more = self.else_branches(at);
                branches_of(first, more)
            }
            Err(none) => Err(none),
        }
    }
    /// Parses the branches after `else if`, as long as one begins.
    #[inline(never)]
    fn else_branches(
        &self,
        at: &mut Ahead<'_>,
    ) -> Result<Found<List<Branch>>, ReadNone> {
        read_parts::<
            Branches,
            BranchRules<P, B, I>,
            Branch,
            (),
            _,
        >(
            self.rules.alloc,
            at,
            self.rules.depth,
            Going::ElseIfs,
            self,
            BranchRules::else_branch,
            (),
        )
    }
    /// Parses an `if` with all its branches, after the word `if`.
    #[inline(never)]
    pub fn if_expr(&self, at: &mut Ahead<'_>) -> Result<Found<Boxed<Expr>>, ReadNone> {
        let branches = self.branches(at)?;
        let (branches, otherwise) = both(branches, self.otherwise(at))?;
        boxed_found(
            self.rules.alloc,
            Expr::If { branches: branches.node, otherwise: otherwise.node },
            greater(branches.need, otherwise.need) + 1,
        )
    }
    /// Parses a `while` loop after its `while`.
    #[inline(never)]
    pub fn while_expr(
        &self,
        at: &mut Ahead<'_>,
        label: Option<Lifetime>,
    ) -> Result<Found<Boxed<Expr>>, ReadNone> {
        let (label, found) = both(label, self.branch_by(at))?;
        let Found { node, need } = found;
        let (condition, body) = node.into_parts();
        boxed_found(self.rules.alloc, Expr::While { label, condition, body }, need + 1)
    }
    /// Parses a `for` loop after its `for`.
    #[inline(never)]
    pub fn for_expr(
        &self,
        at: &mut Ahead<'_>,
        label: Option<Lifetime>,
    ) -> Result<Found<Boxed<Expr>>, ReadNone> {
        let (label, pat) = both(
            label,
            pat_ahead(self.rules.alloc, at, PatPlace::Alternatives, self.rules.depth),
        )?;
        if !takes_keyword(at, b"in") {
            return refused((label, pat));
        }
        let ((label, pat), iterated) = both(
            (label, pat),
            self.rules.expr(at, plain(0, true)),
        )?;
        let ((label, (pat, iterated)), body) = both(
            (label, (pat, iterated)),
            self.rules.block_by(at),
        )?;
        boxed_found(
            self.rules.alloc,
            Expr::For { label, pat: pat.node, iterated: iterated.node, body: body.node },
            greater(pat.need, greater(iterated.need, body.need)) + 1,
        )
    }
}
