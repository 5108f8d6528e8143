//! Made by scripts/rust.sh from crates/lay_read_exprs/src/head.rt, which is proved: change that.
//!
//! Parsing of operands, by their first token.
use crate::generated::lay_read_exprs::climber::Climber;
use crate::generated::lay_code::{Boxed, Expr, Place};
use crate::generated::lay_ops::ahead::expr_lead_at;
use crate::generated::lay_ops::operands::ExprLead;
use crate::generated::lay_read_blocks::BlockHeads;
use crate::generated::lay_read_parts::leads::is_at_literal;
use crate::generated::lay_read_parts::parts::read_literal;
use crate::generated::lay_read_shared::boxes::boxed_found;
use crate::generated::lay_read_tokens::front::pass;
use crate::generated::lay_read_tokens::{Ahead, Found, ReadNone};
use crate::shims::Global;
/// Parses a literal.
fn literal_expr(
    alloc: Global,
    at: &mut Ahead<'_>,
) -> Result<Found<Boxed<Expr>>, ReadNone> {
    let passes = is_at_literal(at);
    let literal = read_literal(alloc, at, passes)?;
    boxed_found(alloc, Expr::Lit { literal }, 1)
}
impl<
    P: Fn(Global, &mut Ahead<'_>, Place, u32) -> Result<Found<Boxed<Expr>>, ReadNone>,
    H: BlockHeads,
> Climber<P, H> {
    /// Parses an operand with its prefix operators, without any operators after it, unless it is
    /// nested too deep.
    #[inline(never)]
    pub fn head(
        &self,
        at: &mut Ahead<'_>,
        no_struct: bool,
    ) -> Result<Found<Boxed<Expr>>, ReadNone> {
        match expr_lead_at(at) {
            Some(lead) => self.head_by(at, no_struct, lead),
            None => Err(ReadNone::NoReading),
        }
    }
    /// Parses an operand by its first token.
    #[inline(never)]
    fn head_by(
        &self,
        at: &mut Ahead<'_>,
        no_struct: bool,
        lead: ExprLead,
    ) -> Result<Found<Boxed<Expr>>, ReadNone> {
        match lead {
            ExprLead::Literal => literal_expr(self.rules.alloc, at),
            ExprLead::Path => self.path_or_call(at, no_struct),
            ExprLead::Prefix => self.unary_expr(at, no_struct),
            ExprLead::Label | ExprLead::Brace | ExprLead::BlockWord
            | ExprLead::Closure => self.heads.block_head(at, no_struct, lead),
            ExprLead::Range => {
                let start = Found { node: None, need: 0 };
                self.rules.range_expr(at, no_struct, start)
            }
            _ => {
                pass(at);
                self.marked(at, no_struct, lead)
            }
        }
    }
}
