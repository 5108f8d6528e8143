//! Made by scripts/rust.sh from crates/lay_paren/src/calls.rt, which is proved: change that.
//!
//! `parenthesize`: puts the parentheses that a tree lacks.
use crate::generated::lay_paren::exprs::place_expr;
use crate::generated::lay_paren::slots::Slot;
use crate::generated::lay_code::{Expr, Place};
use crate::generated::lay_depth::expr_depth;
use crate::generated::lay_token::NoMemory;
use crate::shims::Global;
/// The greatest depth of what a file holds.
const DEPTH: u32 = 256;
/// Why `parenthesize` failed. The tree that it was given is dropped.
#[derive(Clone, Copy, Debug, PartialEq, Eq,)]
pub enum ParenError {
    /// With its parentheses the tree is deeper than a file may be.
    TooDeep,
    /// Memory could not be allocated.
    NoMemory,
}
/// Puts parentheses round each part of the expression that doesn't fit where it stands, and round
/// no other. The expression itself stands at `place`, and gets a pair too if it doesn't fit there.
/// `parenthesize_law` says for which trees the result may stand at the place, and that no pair can
/// be left out. `place.level` is at most 14.
///
/// It is one walk over the tree, in place. It takes linear time, allocates the pairs only, and
/// needs stack in proportion to the depth of the tree.
pub fn parenthesize(
    alloc: Global,
    expr: Expr,
    place: Place,
) -> Result<Expr, ParenError> {
    let mut made = expr;
    let answer = placed(alloc, &mut made, place);
    kept(made, answer)
}
/// The value, unless `answer` is an error.
fn kept<A>(value: A, answer: Result<(), ParenError>) -> Result<A, ParenError> {
    answer?;
    Ok(value)
}
/// Puts the parentheses that the expression lacks. The error is `TooDeep` if it is then deeper than
/// a file may be.
fn placed(alloc: Global, expr: &mut Expr, place: Place) -> Result<(), ParenError> {
    if let Err(NoMemory) = place_expr(alloc, expr, place, Slot::Any) {
        return Err(ParenError::NoMemory);
    }
    if expr_depth(expr) > DEPTH {
        return Err(ParenError::TooDeep);
    }
    Ok(())
}
