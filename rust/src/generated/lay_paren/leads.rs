//! Made by scripts/rust.sh from crates/lay_paren/src/leads.rt, which is proved: change that.
//!
//! The first token of an expression, once its parts have their parentheses.
use crate::generated::lay_paren::places::{
    as_node,
    base_place,
    begins,
    first_place,
    is_index_first,
};
use crate::generated::lay_code::{Expr, Lifetime, Place};
use crate::generated::lay_ops::operands::ExprLead;
use crate::generated::lay_ops::places::before_op;
use crate::generated::lay_ops::{is_number, may};
/// What an expression begins with.
#[derive(Clone, Copy,)]
enum Edge<'a> {
    /// A token of the expression itself.
    Own(ExprLead),
    /// A part, at its place. The flag says that a tuple index follows directly.
    In(&'a Expr, Place, bool),
}
/// What an expression at `place` begins with, once its parts have their parentheses. Whether a part
/// on the left edge needs a pair depends on its root only, so one loop finds it.
pub(crate) fn lead(expr: &Expr, place: Place) -> ExprLead {
    let mut first = expr;
    let mut at = place;
    loop {
        match left_edge(first, at) {
            Edge::Own(lead) => return lead,
            Edge::In(part, part_at, before_index) => {
                if !is_bare(part, part_at, before_index) {
                    return ExprLead::Paren;
                }
                first = part;
                at = part_at;
            }
        }
    }
}
/// What an expression at `place` begins with: a token of its own, or a part with its place.
fn left_edge(expr: &Expr, place: Place) -> Edge<'_> {
    match expr {
        Expr::Lit { .. } => Edge::Own(ExprLead::Literal),
        Expr::Path { .. } | Expr::Call { .. } | Expr::Struct { .. } => {
            Edge::Own(ExprLead::Path)
        }
        Expr::Underscore => Edge::Own(ExprLead::Underscore),
        Expr::Paren { .. } | Expr::Tuple { .. } => Edge::Own(ExprLead::Paren),
        Expr::Continue { .. } => Edge::Own(ExprLead::Continue),
        Expr::Array { .. } | Expr::Repeat { .. } => Edge::Own(ExprLead::Bracket),
        Expr::Chain { first, rest } => {
            Edge::In(first.get(), first_place(rest.as_slice(), place), false)
        }
        Expr::Cast { operand, .. } => {
            let at = before_op(12, place.no_struct, begins(place.start), false);
            Edge::In(operand.get(), at, false)
        }
        Expr::Unary { .. } => Edge::Own(ExprLead::Prefix),
        Expr::Range { start: Some(start), .. } => {
            let at = before_op(2, place.no_struct, begins(place.start), false);
            Edge::In(start.get(), at, false)
        }
        Expr::Range { start: None, .. } => Edge::Own(ExprLead::Range),
        Expr::Assign { targets, value } => {
            match targets.as_slice() {
                [(target, _), ..] => {
                    let at = before_op(1, place.no_struct, begins(place.start), false);
                    Edge::In(target.get(), at, false)
                }
                [] => Edge::In(value.get(), as_node(place, 1), false),
            }
        }
        Expr::Postfix { base, steps } => {
            Edge::In(
                base.get(),
                base_place(steps.as_slice(), place),
                is_index_first(steps.as_slice()),
            )
        }
        Expr::Block { label, .. } => Edge::Own(label_or(label, ExprLead::Brace)),
        Expr::Loop { label, .. } | Expr::While { label, .. }
        | Expr::For { label, .. } => Edge::Own(label_or(label, ExprLead::BlockWord)),
        Expr::Unsafe { .. } | Expr::ConstBlock { .. } | Expr::Async { .. }
        | Expr::If { .. } | Expr::Match { .. } => Edge::Own(ExprLead::BlockWord),
        Expr::Closure { .. } | Expr::TypedClosure { .. } => Edge::Own(ExprLead::Closure),
        Expr::Return { .. } => Edge::Own(ExprLead::Return),
        Expr::Break { .. } => Edge::Own(ExprLead::Break),
    }
}
/// What a node with an optional label begins with: the label, or else `lead`.
fn label_or(label: &Option<Lifetime>, lead: ExprLead) -> ExprLead {
    match label {
        Some(_) => ExprLead::Label,
        None => lead,
    }
}
/// Whether a part on the left edge needs no parentheses at its place; `before_index` says that a
/// tuple index follows directly.
fn is_bare(part: &Expr, place: Place, before_index: bool) -> bool {
    may(part, place) && !(before_index && is_number(part))
}
