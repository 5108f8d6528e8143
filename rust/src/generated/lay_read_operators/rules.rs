//! Made by scripts/rust.sh from crates/lay_read_operators/src/rules.rt, which is proved: change that.
//!
//! The rules of one level, over the reader of the next deeper level.
use crate::generated::lay_code::{Boxed, Expr, Place};
use crate::generated::lay_read_tokens::{Ahead, Found, ReadNone};
use crate::shims::Global;
/// The rules of one level, over the reader of expressions of the next deeper level, at a place.
pub struct ExprRules<P> {
    pub alloc: Global,
    /// The depth limit of the next deeper level.
    pub depth: u32,
    pub exprs: P,
}
impl<
    P: Fn(Global, &mut Ahead<'_>, Place, u32) -> Result<Found<Boxed<Expr>>, ReadNone>,
> ExprRules<P> {
    /// Parses an expression of the next deeper level, and boxes it.
    #[inline(never)]
    pub fn inner(
        &self,
        at: &mut Ahead<'_>,
        place: Place,
    ) -> Result<Found<Boxed<Expr>>, ReadNone> {
        (self.exprs)(self.alloc, at, place, self.depth)
    }
}
