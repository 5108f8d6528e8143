//! Made by scripts/rust.sh from crates/lay_read_operators/src/operands.rt, which is proved: change that.
//!
//! Parsing of operators of one precedence level with their operands.
use crate::generated::lay_read_operators::rules::ExprRules;
use crate::generated::lay_code::{Boxed, Expr, Op, Place};
use crate::generated::lay_ops::ahead::{begins_operand, binary, is_angle, strength};
use crate::generated::lay_ops::places::{before_op, plain};
use crate::generated::lay_ops::stands;
use crate::generated::lay_read_parts::joins::{both, refused};
use crate::generated::lay_read_parts::loops::Part;
use crate::generated::lay_read_shared::boxes::boxed_found;
use crate::generated::lay_read_shared::loops::{Going, read_parts};
use crate::generated::lay_read_tokens::found::greater;
use crate::generated::lay_read_tokens::front::pass;
use crate::generated::lay_read_tokens::{Ahead, Found, ReadNone};
use crate::generated::lay_token::List;
use crate::shims::Global;
/// Operators with their operands as consecutive parts.
pub struct Operands;
impl Part<(Op, Boxed<Expr>), (u8, bool)> for Operands {}
/// Moves past `count` tokens, or as many as there are.
pub fn pass_tokens(at: &mut Ahead<'_>, count: usize) {
    for _passed in 0..count {
        pass(at);
    }
}
/// Whether an operand of this precedence level may end before the next tokens.
fn operand_ends(at: &Ahead<'_>, operand: &Expr, level: u8, no_struct: bool) -> bool {
    if strength(at) == level + 1 {
        level != 4
            && stands(operand, before_op(level + 1, no_struct, false, is_angle(at)))
    } else { true }
}
impl<
    P: Fn(Global, &mut Ahead<'_>, Place, u32) -> Result<Found<Boxed<Expr>>, ReadNone>,
> ExprRules<P> {
    /// Parses operators of one precedence level with their operands, as long as one begins.
    #[inline(never)]
    pub fn operands(
        &self,
        at: &mut Ahead<'_>,
        level: u8,
        no_struct: bool,
    ) -> Result<Found<List<(Op, Boxed<Expr>)>>, ReadNone> {
        read_parts::<
            Operands,
            ExprRules<P>,
            (Op, Boxed<Expr>),
            (u8, bool),
            _,
        >(
            self.alloc,
            at,
            self.depth,
            Going::Operands(level),
            self,
            ExprRules::operand,
            (level, no_struct),
        )
    }
    /// Parses an operator of this precedence level, and its operand.
    #[inline(never)]
    fn operand(
        &self,
        at: &mut Ahead<'_>,
        place: (u8, bool),
    ) -> Result<Found<(Op, Boxed<Expr>)>, ReadNone> {
        let (level, no_struct) = place;
        let op = match binary(at) {
            Some(op) => op,
            None => return Err(ReadNone::NoReading),
        };
        pass_tokens(at, op.text().len());
        let found = self.inner(at, plain(level + 1, no_struct))?;
        if !operand_ends(at, found.node.get(), level, no_struct) {
            return refused(found);
        }
        Ok(Found { need: found.need, node: (op, found.node) })
    }
    /// Parses an operand of this precedence level, if one begins.
    #[inline(never)]
    pub fn operand_if(
        &self,
        at: &mut Ahead<'_>,
        level: u8,
        no_struct: bool,
    ) -> Result<Found<Option<Boxed<Expr>>>, ReadNone> {
        if !begins_operand(at, no_struct) {
            return Ok(Found { node: None, need: 0 });
        }
        let found = self.inner(at, plain(level, no_struct))?;
        Ok(Found { node: Some(found.node), need: found.need })
    }
    /// Parses the operators of one precedence level after an expression with their operands, and
    /// gives the whole.
    #[inline(never)]
    pub fn chain_expr(
        &self,
        at: &mut Ahead<'_>,
        level: u8,
        no_struct: bool,
        lhs: Found<Boxed<Expr>>,
    ) -> Result<Found<Boxed<Expr>>, ReadNone> {
        let (lhs, more) = both(lhs, self.operands(at, level, no_struct))?;
        boxed_found(
            self.alloc,
            Expr::Chain { first: lhs.node, rest: more.node },
            greater(lhs.need, more.need) + 1,
        )
    }
}
