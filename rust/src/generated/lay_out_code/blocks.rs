//! Made by scripts/rust.sh from crates/lay_out_code/src/blocks.rt, which is proved: change that.
//!
//! The layout of blocks and statements.
use crate::generated::lay_out_code::exprs::{add_expr, add_whole};
use crate::generated::lay_out_code::items::{add_inner_attrs, add_item};
use crate::generated::lay_code::{Block, Boxed, Expr, Stmt};
use crate::generated::lay_layout::Break;
use crate::generated::lay_out_exprs::blocks::{close_soft, is_single};
use crate::generated::lay_out_exprs::flags::both;
use crate::generated::lay_out_heads::add_self_type;
use crate::generated::lay_out_heads::calls::add_break;
use crate::generated::lay_out_heads::loops::{close_body, open_body};
use crate::generated::lay_out_pats::{add_attrs, add_pat};
use crate::generated::lay_out_tokens::HARD_BREAK;
use crate::generated::lay_out_tokens::notation::{NEVER_BREAK, SPACE_BREAK};
use crate::generated::lay_out_types::calls::{add_either, add_if, add_text};
use crate::generated::lay_paren_defs::{AsIs, Enclose};
use crate::generated::lay_stream::Emit;
/// Emits the layout of a block. `lead` says that its braces have a leading blank.
pub fn put_block<
    E: Emit,
>(out: &mut E, block: &Block, lead: bool) -> Result<(), E::Fault> {
    add_block::<E, AsIs>(out, Ok(()), lead, block)
}
/// Emits a block, with each statement on a line of its own. `lead` says that its braces have a
/// leading blank.
pub fn add_block<
    E: Emit,
    X: Enclose,
>(
    out: &mut E,
    before: Result<(), E::Fault>,
    lead: bool,
    block: &Block,
) -> Result<(), E::Fault> {
    let attrs = block.attrs.as_slice();
    let stmts = block.stmts.as_slice();
    if both(attrs.is_empty(), stmts.is_empty()) {
        return add_either(out, before, lead, b" {}", b"{}");
    }
    let opened = open_body(out, before, lead);
    let attrs = add_inner_attrs(out, opened, attrs);
    let stmts = add_stmts::<E, X>(out, attrs, HARD_BREAK, stmts);
    close_body(out, stmts)
}
/// Emits a block, which may stand on one line if it is a single expression.
pub fn add_soft<
    E: Emit,
    X: Enclose,
>(out: &mut E, before: Result<(), E::Fault>, block: &Block) -> Result<(), E::Fault> {
    if is_single(block) {
        let opened = open_body(out, before, true);
        let stmts = add_stmts::<E, X>(out, opened, SPACE_BREAK, block.stmts.as_slice());
        return close_soft(out, stmts);
    }
    add_block::<E, X>(out, before, true, block)
}
/// Emits statements, each after a break.
fn add_stmts<
    E: Emit,
    X: Enclose,
>(
    out: &mut E,
    before: Result<(), E::Fault>,
    lead: Break,
    stmts: &[Stmt],
) -> Result<(), E::Fault> {
    let mut done = before;
    for stmt in stmts {
        done = add_break(out, done, lead);
        done = add_stmt::<E, X>(out, done, stmt);
    }
    done
}
/// Emits the layout of a statement.
pub fn put_stmt<E: Emit>(out: &mut E, stmt: &Stmt) -> Result<(), E::Fault> {
    add_stmt::<E, AsIs>(out, Ok(()), stmt)
}
/// Emits a statement.
fn add_stmt<
    E: Emit,
    X: Enclose,
>(out: &mut E, before: Result<(), E::Fault>, stmt: &Stmt) -> Result<(), E::Fault> {
    match stmt {
        Stmt::Let { attrs, pat, ty, value, otherwise } => {
            let attrs = add_attrs(out, before, attrs.as_slice());
            let word = add_text(out, attrs, b"let ");
            let pat = add_pat(out, word, pat);
            let ty = add_self_type(out, pat, ty);
            let value = add_value::<E, X>(out, ty, value);
            let otherwise = add_otherwise::<E, X>(out, value, otherwise);
            add_text(out, otherwise, b";")
        }
        Stmt::Item { item } => add_item::<E, X>(out, before, item.get()),
        Stmt::Expr { attrs, expr, ended } => {
            let attrs = add_attrs(out, before, attrs.as_slice());
            let expr = add_whole::<E, X>(out, attrs, false, expr.get());
            add_if(out, expr, *ended, b";")
        }
    }
}
/// Emits the `else` of a `let` and its block, if it has one.
fn add_otherwise<
    E: Emit,
    X: Enclose,
>(
    out: &mut E,
    before: Result<(), E::Fault>,
    otherwise: &Option<Block>,
) -> Result<(), E::Fault> {
    match otherwise {
        None => before,
        Some(block) => {
            let word = add_text(out, before, b" else");
            add_block::<E, X>(out, word, true, block)
        }
    }
}
/// Emits a `=` and a value, if there is one.
pub fn add_value<
    E: Emit,
    X: Enclose,
>(
    out: &mut E,
    before: Result<(), E::Fault>,
    value: &Option<Boxed<Expr>>,
) -> Result<(), E::Fault> {
    match value {
        None => before,
        Some(expr) => {
            let equals = add_text(out, before, b" = ");
            let lead = add_break(out, equals, NEVER_BREAK);
            add_expr::<E, X>(out, lead, false, expr.get())
        }
    }
}
