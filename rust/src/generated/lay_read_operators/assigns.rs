//! Made by scripts/rust.sh from crates/lay_read_operators/src/assigns.rt, which is proved: change that.
//!
//! Parsing of assignments.
use crate::generated::lay_read_operators::rules::ExprRules;
use crate::generated::lay_code::{Boxed, Expr, Op, Place};
use crate::generated::lay_read_parts::joins::both;
use crate::generated::lay_read_shared::boxes::boxed_found;
use crate::generated::lay_read_tokens::found::greater;
use crate::generated::lay_read_tokens::stop::keep;
use crate::generated::lay_read_tokens::{Ahead, Found, ReadNone};
use crate::generated::lay_token::List;
use crate::shims::Global;
/// Splits operands with operators between them into targets and the value.
fn split(
    alloc: Global,
    first: Boxed<Expr>,
    rest: List<(Op, Boxed<Expr>)>,
) -> Result<(List<(Boxed<Expr>, Op)>, Boxed<Expr>), ReadNone> {
    let mut targets = List::new(alloc);
    let mut value = first;
    let mut rest = rest.into_vec();
    rest.reverse();
    while let Some((op, operand)) = rest.pop() {
        keep(&mut targets, (value, op))?;
        value = operand;
    }
    Ok((targets, value))
}
impl<
    P: Fn(Global, &mut Ahead<'_>, Place, u32) -> Result<Found<Boxed<Expr>>, ReadNone>,
> ExprRules<P> {
    /// Parses the assignments after an expression, and gives the whole.
    #[inline(never)]
    pub fn assign_expr(
        &self,
        at: &mut Ahead<'_>,
        no_struct: bool,
        lhs: Found<Boxed<Expr>>,
    ) -> Result<Found<Boxed<Expr>>, ReadNone> {
        let (lhs, more) = both(lhs, self.operands(at, 0, no_struct))?;
        let need = greater(lhs.need, more.need) + 1;
        let (targets, value) = split(self.alloc, lhs.node, more.node)?;
        boxed_found(self.alloc, Expr::Assign { targets, value }, need)
    }
}
