//! Made by scripts/rust.sh from crates/lay_ops/src/places.rt, which is proved: change that.
//!
//! Places: the contexts of expressions.
use crate::generated::lay_ops::expr_ends::may_precede;
use crate::generated::lay_ops::roots::{
    is_block_like,
    is_endless,
    is_jump,
    is_struct,
    is_typed_cast,
    level,
};
use crate::generated::lay_code::{Expr, Place, Start};
/// Within delimiters, or wherever any expression may stand.
pub const FREE: Place = Place {
    level: 0,
    no_struct: false,
    start: Start::No,
    op_after: false,
    lt_after: false,
};
/// The whole of a statement, or of the body of an arm.
pub const STATEMENT: Place = Place {
    level: 0,
    no_struct: false,
    start: Start::Whole,
    op_after: false,
    lt_after: false,
};
/// A place of this precedence level; `no_struct` says that no struct literal may stand there.
pub fn plain(level: u8, no_struct: bool) -> Place {
    Place { level, no_struct, start: Start::No, op_after: false, lt_after: false }
}
/// The place of an operand before an operator. `first` says that it begins a statement, `angle`
/// that the operator is `<` or `<<`.
pub fn before_op(level: u8, no_struct: bool, first: bool, angle: bool) -> Place {
    let start = if first { Start::Part } else { Start::No };
    Place { level, no_struct, start, op_after: true, lt_after: angle }
}
/// The place of a link in a condition with a `let`; `more` says that another link follows.
pub fn link_place(more: bool) -> Place {
    Place {
        level: 4,
        no_struct: true,
        start: Start::No,
        op_after: more,
        lt_after: false,
    }
}
/// Whether the root of an expression may stand at a place.
pub fn may(expr: &Expr, place: Place) -> bool {
    place.level <= level(expr)
        && !(place.op_after && (is_jump(expr) || is_endless(expr)))
        && !(place.lt_after && is_typed_cast(expr))
        && !(is_part(place.start) && is_block_like(expr))
        && !(place.no_struct && is_struct(expr))
}
/// Whether an expression may stand at a place, and so may each expression that ends where it ends.
pub fn stands(expr: &Expr, place: Place) -> bool {
    place.level <= level(expr) && may_precede(expr, place.op_after, place.lt_after)
        && !(is_part(place.start) && is_block_like(expr))
        && !(place.no_struct && is_struct(expr))
}
/// Whether an expression here begins a statement and is only a part of it.
fn is_part(start: Start) -> bool {
    matches!(start, Start::Part)
}
