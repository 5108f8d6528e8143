//! Made by scripts/rust.sh from crates/lay_out_exprs/src/blocks.rt, which is proved: change that.
//!
//! What is laid out around blocks, and before them.
use crate::generated::lay_out_exprs::flags::both;
use crate::generated::lay_code::{Attr, Block, Lifetime, Pat, Stmt};
use crate::generated::lay_out_heads::calls::add_break;
use crate::generated::lay_out_pats::{add_group, add_pat};
use crate::generated::lay_out_tokens::notation::{CLOSING_SPACE_BREAK, SPACE_BREAK};
use crate::generated::lay_out_types::calls::add_text;
use crate::generated::lay_out_types::lists::add_end;
use crate::generated::lay_stream::Emit;
/// Emits a label before a loop or a block, if there is one.
pub fn add_labelled<
    E: Emit,
>(
    out: &mut E,
    before: Result<(), E::Fault>,
    label: &Option<Lifetime>,
) -> Result<(), E::Fault> {
    match label {
        None => before,
        Some(label) => {
            let label = add_text(out, before, label.text.as_bytes());
            add_text(out, label, b": ")
        }
    }
}
/// Emits what stands before a condition: what opens its group, and the word.
pub fn add_condition_lead<
    E: Emit,
>(out: &mut E, before: Result<(), E::Fault>, word: &[u8]) -> Result<(), E::Fault> {
    let group = add_group(out, before);
    add_text(out, group, word)
}
/// Emits what stands before the value of a `let` link: the word `let`, the pattern and an `=`.
pub fn add_let_lead<
    E: Emit,
>(out: &mut E, before: Result<(), E::Fault>, pat: &Pat) -> Result<(), E::Fault> {
    let word = add_text(out, before, b"let ");
    let pat = add_pat(out, word, pat);
    add_text(out, pat, b" = ")
}
/// Emits what stands before a link of a condition: a break, and the operator with its blank, unless
/// it is the first one.
pub fn add_link_lead<
    E: Emit,
>(out: &mut E, before: Result<(), E::Fault>, first: bool) -> Result<(), E::Fault> {
    if first {
        return before;
    }
    let line = add_break(out, before, SPACE_BREAK);
    add_text(out, line, b"&& ")
}
/// Emits what stands before a branch: the word `else`, unless it is the first one.
pub fn add_else_word<
    E: Emit,
>(out: &mut E, before: Result<(), E::Fault>, first: bool) -> Result<(), E::Fault> {
    if first {
        return before;
    }
    add_text(out, before, b" else ")
}
/// Whether a block is one expression without a `;`.
pub fn is_single(block: &Block) -> bool {
    if !block.attrs.as_slice().is_empty() {
        return false;
    }
    match block.stmts.as_slice() {
        [stmt] => is_bare(stmt),
        _ => false,
    }
}
/// Whether a statement is an expression without attributes and without a `;`.
fn is_bare(stmt: &Stmt) -> bool {
    match stmt {
        Stmt::Expr { attrs, ended, .. } => both(attrs.as_slice().is_empty(), !*ended),
        _ => false,
    }
}
/// Closes a block of one expression, on its line or on one of its own.
pub fn close_soft<
    E: Emit,
>(out: &mut E, before: Result<(), E::Fault>) -> Result<(), E::Fault> {
    let line = add_break(out, before, CLOSING_SPACE_BREAK);
    let end = add_end(out, line);
    add_text(out, end, b"}")
}
