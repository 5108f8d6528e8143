//! Made by scripts/rust.sh from crates/lay_ops/src/bodies.rt, which is proved: change that.
//!
//! Facts about blocks, statements and items, decided by their roots.
use crate::generated::lay_ops::roots::{is_block_like, is_macro};
use crate::generated::lay_ops::structs::is_structless;
use crate::generated::lay_code::{Attr, Block, Expr, Item, ItemKind, Lifetime, Stmt};
/// Whether another statement may follow the statement.
pub fn ends(stmt: &Stmt) -> bool {
    match stmt {
        Stmt::Let { .. } | Stmt::Item { .. } => true,
        Stmt::Expr { expr, ended, .. } => *ended || is_block_like(expr.get()),
    }
}
/// Whether the expression is plain: no macro call, without attributes and without a `;`.
fn is_lone_expr(attrs: &[Attr], ended: bool, expr: &Expr) -> bool {
    attrs.is_empty() && !ended && !is_macro(expr)
}
/// Whether the statement is such a plain expression.
fn is_lone_stmt(stmt: &Stmt) -> bool {
    match stmt {
        Stmt::Expr { attrs, expr, ended } => {
            is_lone_expr(attrs.as_slice(), *ended, expr.get())
        }
        _ => false,
    }
}
/// Whether the list is a single statement that is a plain expression.
fn is_lone_list(stmts: &[Stmt]) -> bool {
    match stmts {
        [stmt] => is_lone_stmt(stmt),
        _ => false,
    }
}
/// Whether a block holds a plain expression and nothing else.
fn is_lone(block: &Block) -> bool {
    block.attrs.as_slice().is_empty() && is_lone_list(block.stmts.as_slice())
}
/// Whether there is no label.
pub(crate) fn is_unlabelled(label: &Option<Lifetime>) -> bool {
    match label {
        Some(_) => false,
        None => true,
    }
}
/// Whether the expression is a block whose braces are dropped as the body of an arm.
pub fn is_lone_body(expr: &Expr) -> bool {
    match expr {
        Expr::Block { label, body } => is_unlabelled(label) && is_lone(body),
        _ => false,
    }
}
/// Whether the expression is a block whose braces are dropped as the body of a closure; `no_struct`
/// says that no struct literal may stand there.
pub fn sheds(expr: &Expr, no_struct: bool) -> bool {
    match expr {
        Expr::Block { label, body } => is_unlabelled(label) && is_shed(body, no_struct),
        _ => false,
    }
}
/// Whether an unlabelled block is one whose braces are dropped; `no_struct` says that no struct
/// literal may stand there.
fn is_shed(block: &Block, no_struct: bool) -> bool {
    is_lone(block) && (!no_struct || is_block_structless(block))
}
/// Whether no expression among a block's statements has a struct literal outside delimiters.
fn is_block_structless(block: &Block) -> bool {
    are_stmts_structless(block.stmts.as_slice())
}
/// Whether no expression among the statements has a struct literal outside delimiters.
fn are_stmts_structless(stmts: &[Stmt]) -> bool {
    for stmt in stmts {
        if !is_stmt_structless(stmt) {
            return false;
        }
    }
    true
}
/// Whether the statement is no expression with a struct literal outside delimiters.
fn is_stmt_structless(stmt: &Stmt) -> bool {
    match stmt {
        Stmt::Expr { expr, .. } => is_structless(expr.get()),
        _ => true,
    }
}
/// Whether an item is a macro call.
pub fn is_call(item: &Item) -> bool {
    matches!(item.kind.get(), ItemKind::Call { .. })
}
