//! Made by scripts/rust.sh from crates/lay_read_operators/src/climb.rt, which is proved: change that.
//!
//! Precedence climbing: the operators after an expression, the tightest first.
use crate::generated::lay_read_operators::rules::ExprRules;
use crate::generated::lay_code::{Boxed, Expr, Place, Start};
use crate::generated::lay_ops::ahead::{is_angle, is_dot_or_try, strength};
use crate::generated::lay_ops::places::before_op;
use crate::generated::lay_ops::{is_block_like, stands};
use crate::generated::lay_read_parts::joins::refused;
use crate::generated::lay_read_tokens::{Ahead, Found, ReadNone};
use crate::shims::Global;
/// Whether an expression begins a statement or the body of an arm.
fn begins(start: Start) -> bool {
    !matches!(start, Start::No)
}
/// Whether an expression is the whole of a statement or of the body of an arm.
fn is_whole(start: Start) -> bool {
    matches!(start, Start::Whole)
}
/// The place of the expression before an operator of this precedence level.
fn left_place(at: &Ahead<'_>, place: Place, level: u8) -> Place {
    let first = begins(place.start) && !(level == 13 && is_dot_or_try(at));
    before_op(level + 1, place.no_struct, first, is_angle(at))
}
/// Whether the expression has ended as a statement: only `.` and `?` could go on with it, and
/// neither comes next.
pub fn is_ended(at: &Ahead<'_>, place: Place, expr: &Expr) -> bool {
    is_whole(place.start) && is_block_like(expr) && !is_dot_or_try(at)
}
/// Whether the next tokens may follow the root of the expression.
fn root_follows(at: &Ahead<'_>, place: Place, expr: &Expr) -> bool {
    if is_whole(place.start) && is_block_like(expr) { !is_dot_or_try(at) } else {
        strength(at) <= place.level
    }
}
/// The expression, if it may stand at the place, the next tokens may follow it, and it is nested no
/// deeper than `budget`.
pub fn accepted(
    at: &Ahead<'_>,
    place: Place,
    found: Found<Boxed<Expr>>,
    budget: u32,
) -> Result<Found<Boxed<Expr>>, ReadNone> {
    let passes = stands(found.node.get(), place)
        && root_follows(at, place, found.node.get()) && found.need <= budget;
    if passes { Ok(found) } else { refused(found) }
}
/// Whether an operator comes next that the place allows and whose precedence level is below
/// `reached`.
fn goes_on(at: &Ahead<'_>, place: Place, reached: u8) -> bool {
    let strength = strength(at);
    place.level < strength && strength <= reached
}
impl<
    P: Fn(Global, &mut Ahead<'_>, Place, u32) -> Result<Found<Boxed<Expr>>, ReadNone>,
> ExprRules<P> {
    /// Parses the operators after an expression that the place allows, the tightest first. Their
    /// precedence level is below `from`.
    #[inline(never)]
    pub fn climb(
        &self,
        at: &mut Ahead<'_>,
        place: Place,
        from: u8,
        head: Found<Boxed<Expr>>,
    ) -> Result<Found<Boxed<Expr>>, ReadNone> {
        let mut lhs = head;
        let mut reached = from;
        while goes_on(at, place, reached) {
            reached = strength(at) - 1;
            lhs = self.climb_once(at, place, reached, lhs)?;
        }
        accepted(at, place, lhs, self.depth + 1)
    }
    /// Parses the operators of one precedence level after an expression, if the expression may
    /// stand before them and the whole isn't nested too deep.
    #[inline(never)]
    fn climb_once(
        &self,
        at: &mut Ahead<'_>,
        place: Place,
        level: u8,
        lhs: Found<Boxed<Expr>>,
    ) -> Result<Found<Boxed<Expr>>, ReadNone> {
        if lhs.need > self.depth
            || !stands(lhs.node.get(), left_place(at, place, level)) {
            return refused(lhs);
        }
        self.stage(at, level, place.no_struct, lhs)
    }
    /// Parses the operators of this precedence level, or the postfix steps, after an expression, by
    /// the rule of the level.
    #[inline(never)]
    fn stage(
        &self,
        at: &mut Ahead<'_>,
        level: u8,
        no_struct: bool,
        lhs: Found<Boxed<Expr>>,
    ) -> Result<Found<Boxed<Expr>>, ReadNone> {
        match level {
            0 => self.assign_expr(at, no_struct, lhs),
            1 => {
                let start = Found { node: Some(lhs.node), need: lhs.need };
                self.range_expr(at, no_struct, start)
            }
            11 => self.cast_expr(at, lhs),
            13 => self.postfix_expr(at, lhs),
            _ => self.chain_expr(at, level, no_struct, lhs),
        }
    }
}
