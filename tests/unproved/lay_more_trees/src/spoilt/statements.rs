//! Statements, and the bodies of arms.

use super::each_spoils;
use crate::trees::{
    block_of, boxed_expr, empty_block, expr, file_of_block, file_of_expr, file_of_stmt, one, pat,
    unended,
};
use lay_token::List;
use lay_tree::{Arm, Expr, File, Stmt};
use std::alloc::Global;

/// `a b`, two statements without a `;`
fn before_another(alloc: Global, text: &str) -> Option<File> {
    let mut stmts = one(alloc, unended(alloc, expr(alloc, text)?)?)?;
    stmts.push(unended(alloc, expr(alloc, "b")?)?).ok()?;
    file_of_block(alloc, block_of(alloc, stmts))
}

/// `a b;`, where the first statement has a `;` of its own
fn ended_before_another(alloc: Global, text: &str) -> Option<File> {
    let first = Stmt::Expr {
        attrs: List::new(alloc),
        expr: boxed_expr(alloc, text)?,
        ended: true,
    };
    let mut stmts = one(alloc, first)?;
    stmts.push(unended(alloc, expr(alloc, "b")?)?).ok()?;
    file_of_block(alloc, block_of(alloc, stmts))
}

#[test]
fn statements(rt: HostRuntime) {
    let alloc = rt.alloc();
    let rows =
        "a statement that ends by itself before another→match a{}→a¶a=b¶m!()¶return¶a{}.b¶|a|b§\
        a statement that ends by itself before another→m!{}→m![]¶m!{}.a¶match a{}?§\
        a statement that ends by itself before another→{}→async{}¶-{}¶S{}§\
        a statement that ends by itself before another→'a:loop{}→'a:loop{}.b¶break 'a";
    each_spoils(&rt, alloc, rows, before_another);
    let ended =
        "any, where it has its semicolon→a→match a{}+b§any, where it has its semicolon→m!()→{}()";
    each_spoils(&rt, alloc, ended, ended_before_another);
}

/// `let A = b else {};`, or without a value where there is no text
fn before_else(alloc: Global, text: &str) -> Option<File> {
    let value = if text.is_empty() {
        None
    } else {
        Some(boxed_expr(alloc, text)?)
    };
    let pat = pat(alloc, "A")?;
    file_of_stmt(
        alloc,
        Stmt::Let {
            attrs: List::new(alloc),
            pat,
            ty: None,
            value,
            otherwise: Some(empty_block(alloc)),
        },
    )
}

#[test]
fn values_before_else(rt: HostRuntime) {
    let rows = "a value→a→§no chain of || or &&→(a||b)→a||b¶a&&b¶a&&b&&c§\
        no brace at the end→(S{})→S{}¶{}¶match a{}¶-{a}¶a+S{}¶m!{}¶return{}¶break S{}¶a as fn()->m!{}¶&S{}§\
        a brace within→S{}.a→S{}§a brace within→m!{}()→m!{}§\
        no closure at the end→(|a|b)→|a|b¶a=|b|c¶return|b|c¶-|a|b¶a+|b|c§\
        a closure within→f(|a|b)→|a|b§a chain within→a=b||c→b||c§a chain within→-(a&&b)→a&&b";
    each_spoils(&rt, rt.alloc(), rows, before_else);
}

/// `match _ { _ => a }`
fn arm(alloc: Global, text: &str) -> Option<File> {
    let arm = Arm {
        attrs: List::new(alloc),
        pat: pat(alloc, "_")?,
        guard: None,
        body: boxed_expr(alloc, text)?,
    };
    let arms = one(alloc, arm)?;
    let scrutinee = boxed_expr(alloc, "_")?;
    file_of_expr(
        alloc,
        Expr::Match {
            scrutinee,
            attrs: List::new(alloc),
            arms,
        },
    )
}

#[test]
fn bodies_of_arms(rt: HostRuntime) {
    let rows = "no braces around one expression→a→{a}¶{{a}}¶{{}}¶{match a{}}¶{return}¶{S{}}§\
        no braces around one expression, but a statement→{a;}→{a}§\
        no braces around one expression, but two→{m!{}a}→{a}§\
        no braces around one expression, but one with an attribute→{#[b]a}→{a}§\
        no braces around one expression, but with an inner attribute→{#![b]a}→{a}§\
        no braces around one expression, but with a label→'b:{a}→{a}§\
        no braces around one expression, but a macro call→{m!()}→{a}§\
        no braces around one expression, but a macro call→{m!{}}→{m!{}.a}§\
        no block-like expression at its front→(match a{})+b→match a{}+b¶m!{}-a¶{}()§\
        any, where a point or ? follows→match a{}.b→match a{}[b]";
    each_spoils(&rt, rt.alloc(), rows, arm);
}
