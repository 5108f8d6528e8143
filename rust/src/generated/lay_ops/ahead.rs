//! Made by scripts/rust.sh from crates/lay_ops/src/ahead.rt, which is proved: change that.
//!
//! The tests for operators and operands, on the cursor of the readers.
use crate::generated::lay_ops::operands::{ExprLead, is_operand_lead};
use crate::generated::lay_ops::operators::op_level;
use crate::generated::lay_code::{Op, Prefix};
use crate::generated::lay_read_tokens::Ahead;
use crate::generated::lay_read_tokens::front::{is_at_keyword, is_at_opened};
use crate::generated::lay_token::Delim;
/// The binary operator that comes next, if one does.
pub fn binary(at: &Ahead<'_>) -> Option<Op> {
    let cursor = at.fork().into_cursor();
    crate::generated::lay_ops::operators::binary(&cursor)
}
/// The prefix operator that comes next, if one does.
pub fn prefix(at: &Ahead<'_>) -> Option<Prefix> {
    let cursor = at.fork().into_cursor();
    crate::generated::lay_ops::operators::prefix(&cursor)
}
/// How an expression begins with the next tokens, if one does.
pub fn expr_lead_at(at: &Ahead<'_>) -> Option<ExprLead> {
    let cursor = at.fork().into_cursor();
    crate::generated::lay_ops::operands::expr_lead_at(&cursor)
}
/// Whether an operand comes next; `no_struct` says that no struct literal may stand there.
pub fn begins_operand(at: &Ahead<'_>, no_struct: bool) -> bool {
    is_operand_lead(expr_lead_at(at), no_struct)
}
/// Whether `.` or `?` comes next, which go on with an expression even if that ends a statement.
pub fn is_dot_or_try(at: &Ahead<'_>) -> bool {
    at.op_is(b".") || at.op_is(b"?")
}
/// Whether a postfix step comes next.
pub fn begins_step(at: &Ahead<'_>) -> bool {
    is_dot_or_try(at) || is_at_opened(at, Delim::Paren)
        || is_at_opened(at, Delim::Bracket)
}
/// Whether `<` or `<<` comes next, which after a type would open generic arguments.
pub fn is_angle(at: &Ahead<'_>) -> bool {
    matches!(binary(at), Some(Op::Less | Op::Shl))
}
/// How tightly the next tokens bind an expression before them: 0 if they don't go on with it, else
/// 1 more than the precedence level of the operator, of `as`, or of the postfix step.
pub fn strength(at: &Ahead<'_>) -> u8 {
    match binary(at) {
        Some(op) => op_level(op) + 1,
        None => strength_without_op(at),
    }
}
/// How tightly the next tokens bind, if no binary operator comes next.
fn strength_without_op(at: &Ahead<'_>) -> u8 {
    if is_at_keyword(at, b"as") { 12 } else if begins_step(at) { 14 } else { 0 }
}
