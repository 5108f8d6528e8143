//! Made by scripts/rust.sh from crates/lay_build/src/blocks.rt, which is proved: change that.
//!
//! Builders of statements and blocks.
use crate::generated::lay_build_types::{
    BuildError,
    BuiltBlock,
    BuiltExpr,
    BuiltName,
    BuiltStmt,
    BuiltType,
    both,
    boxed,
    keep,
    kept,
    nodes,
    part_or_none,
};
use crate::generated::lay_code::{Block, Expr, Name, Pat, Stmt, Ty};
use crate::generated::lay_text::List;
use crate::shims::Global;
/// A `let` statement that binds a name: `let a = c;`, or with a type, `let a: B = c;`.
pub fn stmt_let(
    alloc: Global,
    name: BuiltName,
    ty: Option<BuiltType>,
    value: BuiltExpr,
) -> Result<BuiltStmt, BuildError> {
    let (name, _) = name.into_parts();
    let (ty, need) = part_or_none(ty);
    let (value, more) = value.into_parts();
    kept(let_stmt(alloc, name, ty, value, need.max(more)))
}
/// A `let` whose type and value need this depth.
fn let_stmt(
    alloc: Global,
    name: Name,
    ty: Option<Ty>,
    value: Expr,
    need: u32,
) -> Result<(Stmt, u32), BuildError> {
    let value = boxed(alloc, value)?;
    let stmt = Stmt::Let {
        attrs: List::new(alloc),
        pat: bind(name),
        ty,
        value: Some(value),
        otherwise: None,
    };
    Ok((stmt, need.max(1) + 1))
}
/// A name as a pattern.
pub(crate) fn bind(name: Name) -> Pat {
    Pat::Bind { by_ref: false, mutable: false, name, of: None }
}
/// An expression statement: `a;`.
pub fn stmt_expr(alloc: Global, expr: BuiltExpr) -> Result<BuiltStmt, BuildError> {
    let (expr, need) = expr.into_parts();
    kept(both(expr_stmt(alloc, expr, true), Ok(need + 1)))
}
/// An expression as a statement, with its `;` or without.
fn expr_stmt(alloc: Global, expr: Expr, ended: bool) -> Result<Stmt, BuildError> {
    let expr = boxed(alloc, expr)?;
    Ok(Stmt::Expr { attrs: List::new(alloc), expr, ended })
}
/// A block of these statements, and of a last expression, if there is one: `{ a; b }`.
pub fn block(
    alloc: Global,
    stmts: List<BuiltStmt>,
    tail: Option<BuiltExpr>,
) -> Result<BuiltBlock, BuildError> {
    let (tail, more) = part_or_none(tail);
    let (stmts, last) = both(nodes(alloc, stmts), tail_stmt(alloc, tail))?;
    let (stmts, need) = stmts;
    kept(block_of(alloc, stmts, last, need.max(more + 1)))
}
/// The last expression of a block as a statement without `;`.
fn tail_stmt(alloc: Global, tail: Option<Expr>) -> Result<Option<Stmt>, BuildError> {
    match tail {
        Some(tail) => Ok(Some(expr_stmt(alloc, tail, false)?)),
        None => Ok(None),
    }
}
/// A block of these statements and a last one, if there is one, which need this depth.
fn block_of(
    alloc: Global,
    stmts: List<Stmt>,
    last: Option<Stmt>,
    need: u32,
) -> Result<(Block, u32), BuildError> {
    let stmts = with_last(stmts, last)?;
    let block = Block { attrs: List::new(alloc), stmts };
    Ok((block, need))
}
/// The list with one more item appended, if there is one.
fn with_last<T>(list: List<T>, last: Option<T>) -> Result<List<T>, BuildError> {
    let mut list = list;
    if let Some(last) = last {
        keep(&mut list, last)?;
    }
    Ok(list)
}
