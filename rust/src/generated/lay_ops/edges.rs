//! Made by scripts/rust.sh from crates/lay_ops/src/edges.rt, which is proved: change that.
//!
//! Facts about the left and the right edge of the body of a closure, which decide whether it gets
//! braces when it is broken.
use crate::generated::lay_ops::bodies::{is_lone_body, is_unlabelled};
use crate::generated::lay_ops::roots::is_block_like;
use crate::generated::lay_code::{Expr, Step};
/// What the node at an edge of an expression decides.
#[derive(Clone, Copy,)]
enum Edge<'a> {
    /// The answer.
    Told(bool),
    /// The answer is that of this operand.
    In(&'a Expr),
}
/// Whether the body of a closure may get braces that aren't in the tree: it may stand as a
/// statement, and the closures that it ends in don't keep braces that they would lose within these.
/// Two walks decide it, one down each edge, so nested closures take at most quadratic time.
pub fn may_wear_braces(expr: &Expr) -> bool {
    starts(expr) && is_tight(expr)
}
/// Whether everything on the left edge of the expression may begin a statement.
fn starts(expr: &Expr) -> bool {
    let mut first = expr;
    loop {
        match starting_edge(first) {
            Edge::Told(answer) => return answer,
            Edge::In(part) => {
                if is_block_like(part) {
                    return false;
                }
                first = part;
            }
        }
    }
}
/// Whether the root of the expression may begin a statement, or which operand on the left edge
/// decides it.
fn starting_edge(expr: &Expr) -> Edge<'_> {
    match expr {
        Expr::Chain { first, .. } => Edge::In(first.get()),
        Expr::Cast { operand, .. } => Edge::In(operand.get()),
        Expr::Range { start: Some(start), .. } => Edge::In(start.get()),
        Expr::Assign { targets, .. } => {
            match targets.as_slice() {
                [(target, _), ..] => Edge::In(target.get()),
                [] => Edge::Told(true),
            }
        }
        Expr::Postfix { base, steps } => {
            if begins_dotted(steps.as_slice()) { Edge::Told(true) } else {
                Edge::In(base.get())
            }
        }
        _ => Edge::Told(true),
    }
}
/// Whether the first of the steps begins with `.` or is `?`.
pub fn begins_dotted(steps: &[Step]) -> bool {
    match steps {
        [step, ..] => is_dotted(step),
        [] => false,
    }
}
/// Whether a step begins with `.` or is `?`.
fn is_dotted(step: &Step) -> bool {
    !matches!(step, Step::Apply { .. } | Step::Index { .. })
}
/// `false` if the expression ends in a closure whose body keeps its braces only because no struct
/// literal may stand at this position.
fn is_tight(expr: &Expr) -> bool {
    let mut last = expr;
    loop {
        match closing_edge(last) {
            Edge::Told(answer) => return answer,
            Edge::In(operand) => last = operand,
        }
    }
}
/// Whether the root of the expression is no such closure, or which operand decides it.
fn closing_edge(expr: &Expr) -> Edge<'_> {
    match expr {
        Expr::Chain { rest, .. } => {
            match rest.as_slice().last() {
                Some((_, operand)) => Edge::In(operand.get()),
                None => Edge::Told(true),
            }
        }
        Expr::Unary { operand, .. } => Edge::In(operand.get()),
        Expr::Assign { value, .. } => Edge::In(value.get()),
        Expr::Range { end: Some(end), .. } => Edge::In(end.get()),
        Expr::Return { operand: Some(operand) } => Edge::In(operand.get()),
        Expr::Break { operand: Some(operand), .. } => Edge::In(operand.get()),
        Expr::Closure { body, .. } => {
            if is_lone_body(body.get()) { Edge::Told(false) } else {
                Edge::In(body.get())
            }
        }
        _ => Edge::Told(true),
    }
}
/// Whether an expression begins with a `{`.
pub(crate) fn begins_with_brace(expr: &Expr) -> bool {
    let mut first = expr;
    loop {
        match leading_edge(first) {
            Edge::Told(answer) => return answer,
            Edge::In(part) => first = part,
        }
    }
}
/// Whether the root of the expression begins with a `{`, or which operand decides it.
fn leading_edge(expr: &Expr) -> Edge<'_> {
    match expr {
        Expr::Chain { first, .. } => Edge::In(first.get()),
        Expr::Cast { operand, .. } => Edge::In(operand.get()),
        Expr::Range { start: Some(start), .. } => Edge::In(start.get()),
        Expr::Postfix { base, .. } => Edge::In(base.get()),
        Expr::Assign { targets, value } => {
            match targets.as_slice() {
                [(target, _), ..] => Edge::In(target.get()),
                [] => Edge::In(value.get()),
            }
        }
        Expr::Block { label, .. } => Edge::Told(is_unlabelled(label)),
        _ => Edge::Told(false),
    }
}
