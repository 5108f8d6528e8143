//! Made by scripts/rust.sh from crates/lay_ops_ends/src/bodies.rt, which is proved: change that.
//!
//! Braces around the bodies of arms and closures that aren't in the tree.
use crate::generated::lay_code::{Boxed, Expr};
use crate::generated::lay_ops::{is_lone_body, sheds};
/// The expression in a block that holds only that expression.
fn held(expr: Boxed<Expr>) -> Option<Boxed<Expr>> {
    expr.into_inner().into_block()?.into_stmts().into_vec().pop()?.into_expr()
}
/// The body of an arm, without braces that only enclose an expression.
pub fn undressed(expr: Boxed<Expr>) -> Boxed<Expr> {
    let mut body = expr;
    while is_lone_body(body.get()) {
        match held(body) {
            Some(inner) => body = inner,
            None => unreachable!(),
        }
    }
    body
}
/// The body of a closure, without braces that only enclose an expression. `no_struct` says that no
/// struct literal may stand there: braces around one that then couldn't stay are kept.
pub fn shed(expr: Boxed<Expr>, no_struct: bool) -> Boxed<Expr> {
    let mut body = expr;
    while sheds(body.get(), no_struct) {
        match held(body) {
            Some(inner) => body = inner,
            None => unreachable!(),
        }
    }
    body
}
