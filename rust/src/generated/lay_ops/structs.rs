//! Made by scripts/rust.sh from crates/lay_ops/src/structs.rt, which is proved: change that.
//!
//! Struct literals outside delimiters.
use crate::generated::lay_ops::edges::begins_with_brace;
use crate::generated::lay_code::{Boxed, Expr, Op};
/// Whether an expression has no struct literal outside delimiters.
pub(crate) fn is_structless(expr: &Expr) -> bool {
    match expr {
        Expr::Struct { .. } => false,
        Expr::Chain { first, rest } => {
            is_structless(first.get()) && are_operands_structless(rest.as_slice())
        }
        Expr::Assign { targets, value } => {
            are_targets_structless(targets.as_slice()) && is_structless(value.get())
        }
        Expr::Range { start, end, .. } => {
            is_start_structless(start) && is_end_structless(end)
        }
        Expr::Cast { operand: part, .. } | Expr::Unary { operand: part, .. }
        | Expr::Postfix { base: part, .. } | Expr::Closure { body: part, .. } => {
            is_structless(part.get())
        }
        Expr::Return { operand } | Expr::Break { operand, .. } => {
            is_end_structless(operand)
        }
        _ => true,
    }
}
/// Whether no operand of the chain has a struct literal outside delimiters.
fn are_operands_structless(operands: &[(Op, Boxed<Expr>)]) -> bool {
    for (_, operand) in operands {
        if !is_structless(operand.get()) {
            return false;
        }
    }
    true
}
/// Whether no target of the assignment has a struct literal outside delimiters.
fn are_targets_structless(targets: &[(Boxed<Expr>, Op)]) -> bool {
    for (target, _) in targets {
        if !is_structless(target.get()) {
            return false;
        }
    }
    true
}
/// Whether the start of a range, if present, has no struct literal outside delimiters.
fn is_start_structless(start: &Option<Boxed<Expr>>) -> bool {
    match start {
        Some(start) => is_structless(start.get()),
        None => true,
    }
}
/// Whether an optional operand, if present, has no struct literal outside delimiters and does not
/// start with `{`.
fn is_end_structless(end: &Option<Boxed<Expr>>) -> bool {
    match end {
        Some(end) => is_structless(end.get()) && !begins_with_brace(end.get()),
        None => true,
    }
}
