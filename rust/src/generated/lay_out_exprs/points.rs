//! Made by scripts/rust.sh from crates/lay_out_exprs/src/points.rt, which is proved: change that.
//!
//! Which expressions end in a `.`: that of a number, or of a `..`.
use crate::generated::lay_out_exprs::flags::both;
use crate::generated::lay_code::{Boxed, Expr, Path, PathStart};
use crate::generated::lay_out_pats::is_pointed;
use crate::generated::lay_paren_defs::Enclose;
/// Whether a part ends in a `.`, which it doesn't in parentheses. `point` says that the text before
/// it does.
pub fn part_ends_in_point<X: Enclose>(point: bool, node: &Expr) -> bool {
    if X::on() {
        return false;
    }
    ends_in_point(point, node)
}
/// Whether an optional part ends in a `.`; if there is none, whether the text before it does, as
/// `point` says.
pub fn optional_ends_in_point<
    X: Enclose,
>(point: bool, node: &Option<Boxed<Expr>>) -> bool {
    match node {
        None => point,
        Some(node) => part_ends_in_point::<X>(point, node.get()),
    }
}
/// Whether an expression ends in a `.`. `point` says that the text before it does: an expression
/// without any text, which no text reads to, leaves that as it is.
fn ends_in_point(point: bool, node: &Expr) -> bool {
    match node {
        Expr::Lit { literal } => is_pointed(literal),
        Expr::Path { path } => both(point, is_nothing(path)),
        Expr::Chain { first, rest } => {
            match rest.as_slice() {
                [] => ends_in_point(point, first.get()),
                [.., (_, operand)] => ends_in_point(false, operand.get()),
            }
        }
        Expr::Cast { operand, types } => {
            types.as_slice().is_empty() && ends_in_point(point, operand.get())
        }
        Expr::Unary { prefixes, operand } => {
            ends_in_point(both(point, prefixes.as_slice().is_empty()), operand.get())
        }
        Expr::Range { inclusive, end, .. } => operand_ends_in_point(!*inclusive, end),
        Expr::Assign { targets, value } => {
            ends_in_point(both(point, targets.as_slice().is_empty()), value.get())
        }
        Expr::Postfix { base, steps } => {
            steps.as_slice().is_empty() && ends_in_point(point, base.get())
        }
        Expr::If { branches, otherwise } => {
            match otherwise {
                None => both(point, branches.as_slice().is_empty()),
                Some(_) => false,
            }
        }
        Expr::Closure { body, .. } => ends_in_point(false, body.get()),
        Expr::Return { operand } => operand_ends_in_point(false, operand),
        Expr::Break { operand, .. } => operand_ends_in_point(false, operand),
        _ => false,
    }
}
/// Whether an optional operand ends in a `.`; if there is none, whether the text before it does, as
/// `point` says.
fn operand_ends_in_point(point: bool, operand: &Option<Boxed<Expr>>) -> bool {
    match operand {
        None => point,
        Some(operand) => ends_in_point(point, operand.get()),
    }
}
/// Whether a path has no text at all, so that a `.` before it stands at its end.
fn is_nothing(path: &Path) -> bool {
    match &path.start {
        PathStart::Local => path.segments.as_slice().is_empty(),
        _ => false,
    }
}
