//! Made by scripts/rust.sh from crates/lay_read_exprs/src/marked.rt, which is proved: change that.
//!
//! Parsing of operands that begin with a token of their own.
use crate::generated::lay_read_exprs::climber::Climber;
use crate::generated::lay_read_exprs::jumps::continue_expr;
use crate::generated::lay_code::{Boxed, Expr, Place};
use crate::generated::lay_ops::operands::ExprLead;
use crate::generated::lay_read_shared::boxes::boxed_found;
use crate::generated::lay_read_tokens::{Ahead, Found, ReadNone};
use crate::shims::Global;
impl<
    P: Fn(Global, &mut Ahead<'_>, Place, u32) -> Result<Found<Boxed<Expr>>, ReadNone>,
    H,
> Climber<P, H> {
    /// Parses an operand after its first token.
    #[inline(never)]
    pub fn marked(
        &self,
        at: &mut Ahead<'_>,
        no_struct: bool,
        lead: ExprLead,
    ) -> Result<Found<Boxed<Expr>>, ReadNone> {
        match lead {
            ExprLead::Underscore => boxed_found(self.rules.alloc, Expr::Underscore, 1),
            ExprLead::Paren => self.paren_expr(at),
            ExprLead::Bracket => self.bracket_expr(at),
            ExprLead::Continue => continue_expr(self.rules.alloc, at),
            ExprLead::Break => self.break_expr(at, no_struct),
            ExprLead::Return => self.return_expr(at, no_struct),
            _ => Err(ReadNone::NoReading),
        }
    }
}
