//! Made by scripts/rust.sh from crates/lay_read_operators/src/ranges.rt, which is proved: change that.
//!
//! Parsing of ranges.
use crate::generated::lay_read_operators::rules::ExprRules;
use crate::generated::lay_code::{Boxed, Expr, Place};
use crate::generated::lay_read_parts::joins::{both, refused};
use crate::generated::lay_read_shared::boxes::boxed_found;
use crate::generated::lay_read_tokens::found::greater;
use crate::generated::lay_read_tokens::front::{pass, pass_two};
use crate::generated::lay_read_tokens::{Ahead, Found, ReadNone};
use crate::shims::Global;
impl<
    P: Fn(Global, &mut Ahead<'_>, Place, u32) -> Result<Found<Boxed<Expr>>, ReadNone>,
> ExprRules<P> {
    /// Parses a range, from its `..` or `..=` on.
    #[inline(never)]
    pub fn range_expr(
        &self,
        at: &mut Ahead<'_>,
        no_struct: bool,
        start: Found<Option<Boxed<Expr>>>,
    ) -> Result<Found<Boxed<Expr>>, ReadNone> {
        let inclusive = at.op_is(b"..=");
        pass_two(at);
        if inclusive {
            pass(at);
        }
        self.range_by(at, no_struct, start, inclusive)
    }
    /// Parses the end of a range, if it has one, after its operator.
    #[inline(never)]
    fn range_by(
        &self,
        at: &mut Ahead<'_>,
        no_struct: bool,
        start: Found<Option<Boxed<Expr>>>,
        inclusive: bool,
    ) -> Result<Found<Boxed<Expr>>, ReadNone> {
        let (start, end) = both(start, self.operand_if(at, 2, no_struct))?;
        if inclusive && end.node.is_none() {
            return refused((start, end));
        }
        boxed_found(
            self.alloc,
            Expr::Range { start: start.node, inclusive, end: end.node },
            greater(start.need, end.need) + 1,
        )
    }
}
