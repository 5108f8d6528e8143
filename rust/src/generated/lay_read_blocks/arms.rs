//! Made by scripts/rust.sh from crates/lay_read_blocks/src/arms.rt, which is proved: change that.
//!
//! Parsing of the arms of a match.
use crate::generated::lay_read_blocks::rules::BlockRules;
use crate::generated::lay_code::{
    Arm,
    Attr,
    Block,
    Boxed,
    Expr,
    Item,
    Pat,
    PatPlace,
    Place,
    Site,
    Stmt,
};
use crate::generated::lay_ops::places::{FREE, STATEMENT, plain};
use crate::generated::lay_ops::{is_free, is_lone_body};
use crate::generated::lay_ops_ends::undressed;
use crate::generated::lay_read_parts::joins::{both, refused};
use crate::generated::lay_read_parts::loops::Part;
use crate::generated::lay_read_pats::pat_ahead;
use crate::generated::lay_read_shared::boxes::boxed_found;
use crate::generated::lay_read_shared::loops::{Going, read_parts};
use crate::generated::lay_read_tokens::attributes::attrs_ahead;
use crate::generated::lay_read_tokens::found::greater;
use crate::generated::lay_read_tokens::front::{
    is_at_closer,
    pass_two,
    takes_closer,
    takes_keyword,
    takes_mark,
    takes_opener,
};
use crate::generated::lay_read_tokens::{Ahead, Found, ReadNone};
use crate::generated::lay_token::{Delim, List};
use crate::shims::Global;
/// Arms as consecutive parts.
pub struct Arms;
impl Part<Arm, u32> for Arms {}
/// Moves past the comma of an arm, and says whether the arm ends there. The comma may be missing
/// before the `}`, and anywhere if `free`.
fn takes_arm_end(at: &mut Ahead<'_>, free: bool) -> bool {
    takes_mark(at, b",") || free || is_at_closer(at, Delim::Brace)
}
/// The body of an arm without braces that aren't in the tree. In such braces it needs as much depth
/// as they do.
fn body_of(found: Found<Boxed<Expr>>) -> Found<Boxed<Expr>> {
    let need = if is_lone_body(found.node.get()) { found.need } else { found.need + 1 };
    Found { node: undressed(found.node), need }
}
impl<
    P: Fn(Global, &mut Ahead<'_>, Place, u32) -> Result<Found<Boxed<Expr>>, ReadNone>,
    B: Fn(Global, &mut Ahead<'_>, u32) -> Result<Found<Block>, ReadNone>,
    I: Fn(Global, &mut Ahead<'_>, Site, u32) -> Result<Found<Item>, ReadNone>,
> BlockRules<P, B, I> {
    /// Parses the body of an arm after its `=>`. The flag says that after this body the comma may
    /// be left out.
    #[inline(never)]
    fn body_begun(
        &self,
        at: &mut Ahead<'_>,
    ) -> Result<Found<(Boxed<Expr>, bool)>, ReadNone> {
        let found = self.expr(at, STATEMENT)?;
        let free = is_free(found.node.get());
        let body = body_of(found);
        Ok(Found { need: body.need, node: (body.node, free) })
    }
    /// Parses a guard, if one comes next.
    #[inline(never)]
    fn guard_if(
        &self,
        at: &mut Ahead<'_>,
    ) -> Result<Found<Option<Boxed<Expr>>>, ReadNone> {
        if !takes_keyword(at, b"if") {
            return Ok(Found { node: None, need: 0 });
        }
        let guard = self.expr(at, FREE)?;
        Ok(Found { node: Some(guard.node), need: guard.need })
    }
    /// Parses an arm. What it contains is parsed at the depth limit of these rules, so the arm
    /// needs at most one level more.
    #[inline(never)]
    fn arm_by(&self, at: &mut Ahead<'_>, _depth: u32) -> Result<Found<Arm>, ReadNone> {
        let Found { node, need } = self.arm_begun(at)?;
        let (arm, free) = node;
        if !takes_arm_end(at, free) {
            return refused(arm);
        }
        Ok(Found { node: arm, need })
    }
    /// Parses an arm up to its comma. The flag says that after its body the comma may be left out.
    #[inline(never)]
    pub fn arm_begun(&self, at: &mut Ahead<'_>) -> Result<Found<(Arm, bool)>, ReadNone> {
        let attrs = attrs_ahead(self.alloc, at, false)?;
        let (attrs, pat) = both(
            attrs,
            pat_ahead(self.alloc, at, PatPlace::Alternatives, self.depth),
        )?;
        let ((attrs, pat), guard) = both((attrs, pat), self.guard_if(at))?;
        self.arm_behind(at, attrs, pat, guard)
    }
    /// Parses an arm after its pattern and its guard.
    #[inline(never)]
    fn arm_behind(
        &self,
        at: &mut Ahead<'_>,
        attrs: List<Attr>,
        pat: Found<Pat>,
        guard: Found<Option<Boxed<Expr>>>,
    ) -> Result<Found<(Arm, bool)>, ReadNone> {
        if !at.op_is(b"=>") {
            return refused((attrs, (pat, guard)));
        }
        pass_two(at);
        let ((attrs, (pat, guard)), found) = both(
            (attrs, (pat, guard)),
            self.body_begun(at),
        )?;
        let (body, free) = found.node;
        Ok(
            Found {
                need: greater(pat.need, greater(guard.need, found.need)),
                node: (Arm { attrs, pat: pat.node, guard: guard.node, body }, free),
            },
        )
    }
    /// Parses a match after its `match`, unless it is nested too deep.
    #[inline(never)]
    pub fn match_expr(
        &self,
        at: &mut Ahead<'_>,
    ) -> Result<Found<Boxed<Expr>>, ReadNone> {
        let scrutinee = self.expr(at, plain(0, true))?;
        if !takes_opener(at, Delim::Brace) {
            return refused(scrutinee);
        }
        let (scrutinee, attrs) = both(scrutinee, attrs_ahead(self.alloc, at, true))?;
        let ((scrutinee, attrs), arms) = both(
            (scrutinee, attrs),
            read_parts::<
                Arms,
                BlockRules<P, B, I>,
                Arm,
                u32,
                _,
            >(
                self.alloc,
                at,
                self.depth + 1,
                Going::Items,
                self,
                BlockRules::arm_by,
                self.depth,
            ),
        )?;
        let need = greater(scrutinee.need, arms.need);
        if !takes_closer(at, Delim::Brace) || need > self.depth {
            return refused(((scrutinee, attrs), arms));
        }
        boxed_found(
            self.alloc,
            Expr::Match { scrutinee: scrutinee.node, attrs, arms: arms.node },
            need + 1,
        )
    }
}
