//! Made by scripts/rust.sh from crates/lay_depth/src/exprs.rt, which is proved: change that.
//!
//! The depth of expressions, and of their fields and steps.
use crate::generated::lay_depth::blocks::{
    arms_depth,
    block_depth,
    block_or_none_depth,
    branches_depth,
};
use crate::generated::lay_depth::conditions::condition_depth;
use crate::generated::lay_depth::nodes::{
    arguments_depth,
    deeper,
    pat_depth,
    path_depth,
    type_depth,
    type_or_none_depth,
    types_depth,
};
use crate::generated::lay_code::{ClosureParam, Expr, FieldExpr, Op, Step};
use crate::generated::lay_node::Boxed;
/// The depth of an expression, at most `u32::MAX`. The body of a closure counts one level more.
pub fn expr_depth(expr: &Expr) -> u32 {
    match expr {
        Expr::Lit { .. } | Expr::Underscore | Expr::Call { .. }
        | Expr::Continue { .. } => 1,
        Expr::Path { path } => deeper(path_depth(path)),
        Expr::Tuple { elements } | Expr::Array { elements } => {
            deeper(exprs_depth(elements.as_slice()))
        }
        Expr::Paren { inner: part } | Expr::Repeat { element: part, .. }
        | Expr::Unary { operand: part, .. } => deeper(expr_depth(part.get())),
        Expr::Struct { path, fields, base } => {
            let within = path_depth(path).max(fields_depth(fields.as_slice()));
            deeper(within.max(base_depth(base)))
        }
        Expr::Chain { first, rest } => {
            deeper(expr_depth(first.get()).max(operands_depth(rest.as_slice())))
        }
        Expr::Cast { operand, types } => {
            deeper(expr_depth(operand.get()).max(types_depth(types.as_slice())))
        }
        Expr::Range { start, end, .. } => {
            deeper(operand_depth(start).max(operand_depth(end)))
        }
        Expr::Assign { targets, value } => {
            deeper(targets_depth(targets.as_slice()).max(expr_depth(value.get())))
        }
        Expr::Postfix { base, steps } => {
            deeper(expr_depth(base.get()).max(steps_depth(steps.as_slice())))
        }
        Expr::Block { body, .. } | Expr::Unsafe { body } | Expr::ConstBlock { body }
        | Expr::Async { body, .. } | Expr::Loop { body, .. } => {
            deeper(block_depth(body))
        }
        Expr::If { branches, otherwise } => {
            deeper(
                branches_depth(branches.as_slice()).max(block_or_none_depth(otherwise)),
            )
        }
        Expr::Match { scrutinee, arms, .. } => {
            deeper(expr_depth(scrutinee.get()).max(arms_depth(arms.as_slice())))
        }
        Expr::While { condition, body, .. } => {
            deeper(condition_depth(condition).max(block_depth(body)))
        }
        Expr::For { pat, iterated, body, .. } => {
            let head = pat_depth(pat).max(expr_depth(iterated.get()));
            deeper(head.max(block_depth(body)))
        }
        Expr::Closure { params, body, .. } => {
            deeper(params_depth(params.as_slice()).max(deeper(expr_depth(body.get()))))
        }
        Expr::TypedClosure { params, output, body, .. } => {
            let head = params_depth(params.as_slice()).max(type_depth(output));
            deeper(head.max(block_depth(body)))
        }
        Expr::Return { operand } | Expr::Break { operand, .. } => {
            deeper(operand_depth(operand))
        }
    }
}
/// The greatest depth of the expressions.
fn exprs_depth(exprs: &[Expr]) -> u32 {
    let mut most = 0u32;
    for expr in exprs {
        most = most.max(expr_depth(expr));
    }
    most
}
/// The depth of an optional expression; 0 if there is none.
pub(crate) fn operand_depth(operand: &Option<Boxed<Expr>>) -> u32 {
    match operand {
        Some(operand) => expr_depth(operand.get()),
        None => 0,
    }
}
/// The greatest depth of the operands of a chain.
fn operands_depth(operands: &[(Op, Boxed<Expr>)]) -> u32 {
    let mut most = 0u32;
    for (_, operand) in operands {
        most = most.max(expr_depth(operand.get()));
    }
    most
}
/// The greatest depth of the targets of an assignment.
fn targets_depth(targets: &[(Boxed<Expr>, Op)]) -> u32 {
    let mut most = 0u32;
    for (target, _) in targets {
        most = most.max(expr_depth(target.get()));
    }
    most
}
/// The greatest depth of the fields of a struct literal.
fn fields_depth(fields: &[FieldExpr]) -> u32 {
    let mut most = 0u32;
    for field in fields {
        most = most.max(field_depth(field));
    }
    most
}
/// The depth of a field of a struct literal.
fn field_depth(field: &FieldExpr) -> u32 {
    match field {
        FieldExpr::Named { value, .. } | FieldExpr::Numbered { value, .. } => {
            expr_depth(value.get())
        }
        FieldExpr::Short { .. } => 0,
    }
}
/// The depth of the base of a struct literal; 0 if there is none.
fn base_depth(base: &Option<Option<Boxed<Expr>>>) -> u32 {
    match base {
        Some(base) => {
            match base {
                Some(base) => expr_depth(base.get()),
                None => 0,
            }
        }
        None => 0,
    }
}
/// The greatest depth of the postfix steps.
fn steps_depth(steps: &[Step]) -> u32 {
    let mut most = 0u32;
    for step in steps {
        most = most.max(step_depth(step));
    }
    most
}
/// The depth of a step.
fn step_depth(step: &Step) -> u32 {
    match step {
        Step::Field { .. } | Step::TupleIndex { .. } | Step::Try | Step::Await => 0,
        Step::Method { generics, args, .. } => {
            let within = exprs_depth(args.as_slice());
            match generics {
                Some(generics) => arguments_depth(generics.as_slice()).max(within),
                None => within,
            }
        }
        Step::Apply { args } => exprs_depth(args.as_slice()),
        Step::Index { index } => expr_depth(index.get()),
    }
}
/// The greatest depth of the parameters of a closure.
fn params_depth(params: &[ClosureParam]) -> u32 {
    let mut most = 0u32;
    for param in params {
        most = most.max(param_depth(param));
    }
    most
}
/// The depth of a parameter of a closure.
fn param_depth(param: &ClosureParam) -> u32 {
    pat_depth(&param.pat).max(type_or_none_depth(&param.ty))
}
