//! Made by scripts/rust.sh from crates/lay_paren/src/places.rt, which is proved: change that.
//!
//! The places of the parts of expressions, computed from the place of the whole.
use crate::generated::lay_code::{Boxed, Expr, Op, Place, Start, Step};
use crate::generated::lay_ops::places::before_op;
use crate::generated::lay_ops::{begins_dotted, first_level};
/// Whether a place begins a statement or the body of an arm.
pub(crate) fn begins(start: Start) -> bool {
    !matches!(start, Start::No)
}
/// The place of a part on the right edge of a node: of level `level`, and otherwise as the node's.
pub(crate) fn as_node(place: Place, level: u8) -> Place {
    Place {
        level,
        no_struct: place.no_struct,
        start: Start::No,
        op_after: place.op_after,
        lt_after: place.lt_after,
    }
}
/// The precedence level of the operators of a chain, given its operands after the first.
pub(crate) fn level_by(rest: &[(Op, Boxed<Expr>)]) -> u8 {
    first_level(rest)
}
/// The place of the first operand of a chain, given the other operands.
pub(crate) fn first_place(rest: &[(Op, Boxed<Expr>)], place: Place) -> Place {
    let first = begins(place.start);
    before_op(level_by(rest) + 1, place.no_struct, first, angle_next(rest))
}
/// The place of an operand of a chain after its operator; `next` is the operator that follows, if
/// one does.
pub(crate) fn operand_place(next: Option<Op>, level: u8, place: Place) -> Place {
    match next {
        Some(op) => before_op(level + 1, place.no_struct, false, is_angle(op)),
        None => as_node(place, level + 1),
    }
}
/// Whether the first of the operators is `<` or `<<`.
fn angle_next(rest: &[(Op, Boxed<Expr>)]) -> bool {
    match rest {
        [(op, _), ..] => is_angle(*op),
        [] => false,
    }
}
/// Whether an operator is `<` or `<<`.
fn is_angle(op: Op) -> bool {
    matches!(op, Op::Less | Op::Shl)
}
/// The place of the expression before these postfix steps.
pub(crate) fn base_place(steps: &[Step], place: Place) -> Place {
    before_op(14, place.no_struct, begins(place.start) && !begins_dotted(steps), false)
}
/// Whether the first of the steps is a tuple index.
pub(crate) fn is_index_first(steps: &[Step]) -> bool {
    match steps {
        [step, ..] => is_tuple_index(step),
        [] => false,
    }
}
/// Whether a step is a tuple index.
fn is_tuple_index(step: &Step) -> bool {
    matches!(step, Step::TupleIndex { .. })
}
