//! Made by scripts/rust.sh from crates/lay_read_exprs/src/jumps.rt, which is proved: change that.
//!
//! Parsing of `continue`, `break` and `return`.
use crate::generated::lay_read_exprs::climber::Climber;
use crate::generated::lay_code::{Boxed, Expr, Place};
use crate::generated::lay_read_parts::joins::both;
use crate::generated::lay_read_parts::parts::read_lifetime_if;
use crate::generated::lay_read_shared::boxes::boxed_found;
use crate::generated::lay_read_tokens::{Ahead, Found, ReadNone};
use crate::shims::Global;
/// Parses a `continue` after that word.
pub fn continue_expr(
    alloc: Global,
    at: &mut Ahead<'_>,
) -> Result<Found<Boxed<Expr>>, ReadNone> {
    let label = read_lifetime_if(alloc, at)?;
    boxed_found(alloc, Expr::Continue { label }, 1)
}
impl<
    P: Fn(Global, &mut Ahead<'_>, Place, u32) -> Result<Found<Boxed<Expr>>, ReadNone>,
    H,
> Climber<P, H> {
    /// Parses a `return` after that word.
    #[inline(never)]
    pub fn return_expr(
        &self,
        at: &mut Ahead<'_>,
        no_struct: bool,
    ) -> Result<Found<Boxed<Expr>>, ReadNone> {
        let found = self.rules.operand_if(at, 0, no_struct)?;
        boxed_found(
            self.rules.alloc,
            Expr::Return { operand: found.node },
            found.need + 1,
        )
    }
    /// Parses a `break` after that word.
    #[inline(never)]
    pub fn break_expr(
        &self,
        at: &mut Ahead<'_>,
        no_struct: bool,
    ) -> Result<Found<Boxed<Expr>>, ReadNone> {
        let label = read_lifetime_if(self.rules.alloc, at)?;
        let (label, found) = both(label, self.rules.operand_if(at, 0, no_struct))?;
        boxed_found(
            self.rules.alloc,
            Expr::Break { label, operand: found.node },
            found.need + 1,
        )
    }
}
