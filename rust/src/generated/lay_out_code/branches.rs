//! Made by scripts/rust.sh from crates/lay_out_code/src/branches.rt, which is proved: change that.
//!
//! The layout of branches and arms.
use crate::generated::lay_out_code::blocks::add_soft;
use crate::generated::lay_out_code::conditions::add_condition;
use crate::generated::lay_out_code::exprs::{add_body_part, add_expr};
use crate::generated::lay_out_code::items::add_inner_attrs;
use crate::generated::lay_code::{Arm, Attr, Block, Boxed, Branch, Expr};
use crate::generated::lay_out_exprs::blocks::{add_condition_lead, add_else_word};
use crate::generated::lay_out_exprs::bodies::{arm_body_braces, close_arm, open_arm};
use crate::generated::lay_out_exprs::flags::both;
use crate::generated::lay_out_heads::calls::add_break;
use crate::generated::lay_out_heads::loops::{close_body, open_body};
use crate::generated::lay_out_pats::{add_attrs, add_group, add_pat};
use crate::generated::lay_out_tokens::HARD_BREAK;
use crate::generated::lay_out_tokens::notation::NEVER_BREAK;
use crate::generated::lay_out_types::calls::add_text;
use crate::generated::lay_out_types::lists::add_end;
use crate::generated::lay_paren_defs::{AsIs, Enclose};
use crate::generated::lay_stream::Emit;
/// Emits `match` and the expression that is matched, in a group of their own.
pub fn add_scrutinee<
    E: Emit,
    X: Enclose,
>(out: &mut E, before: Result<(), E::Fault>, scrutinee: &Expr) -> Result<(), E::Fault> {
    let lead = add_condition_lead(out, before, b"match ");
    let scrutinee = add_expr::<E, X>(out, lead, false, scrutinee);
    add_end(out, scrutinee)
}
/// Emits branches, with `else` between them.
pub fn add_branches<
    E: Emit,
    X: Enclose,
>(
    out: &mut E,
    before: Result<(), E::Fault>,
    branches: &[Branch],
) -> Result<(), E::Fault> {
    let mut done = before;
    for (index, branch) in branches.iter().enumerate() {
        done = add_else_word(out, done, index == 0);
        done = add_condition::<E, X>(out, done, b"if ", &branch.condition);
        done = add_soft::<E, X>(out, done, &branch.body);
    }
    done
}
/// Emits the last `else` and its block, if there is one.
pub fn add_else<
    E: Emit,
    X: Enclose,
>(
    out: &mut E,
    before: Result<(), E::Fault>,
    otherwise: &Option<Block>,
) -> Result<(), E::Fault> {
    match otherwise {
        None => before,
        Some(block) => {
            let word = add_text(out, before, b" else");
            add_soft::<E, X>(out, word, block)
        }
    }
}
/// Emits inner attributes and arms in braces, each on a line of its own.
pub fn add_arms<
    E: Emit,
    X: Enclose,
>(
    out: &mut E,
    before: Result<(), E::Fault>,
    attrs: &[Attr],
    arms: &[Arm],
) -> Result<(), E::Fault> {
    if both(attrs.is_empty(), arms.is_empty()) {
        return add_text(out, before, b" {}");
    }
    let opened = open_body(out, before, true);
    let attrs = add_inner_attrs(out, opened, attrs);
    let arms = add_arm_lines::<E, X>(out, attrs, arms);
    close_body(out, arms)
}
/// Emits arms, each after a newline.
fn add_arm_lines<
    E: Emit,
    X: Enclose,
>(out: &mut E, before: Result<(), E::Fault>, arms: &[Arm]) -> Result<(), E::Fault> {
    let mut done = before;
    for arm in arms {
        done = add_break(out, done, HARD_BREAK);
        done = add_arm::<E, X>(out, done, arm);
    }
    done
}
/// Emits the layout of an arm, which is the same whether or not it is the last.
pub fn put_arm<E: Emit>(out: &mut E, arm: &Arm) -> Result<(), E::Fault> {
    add_arm::<E, AsIs>(out, Ok(()), arm)
}
/// Emits an arm.
fn add_arm<
    E: Emit,
    X: Enclose,
>(out: &mut E, before: Result<(), E::Fault>, arm: &Arm) -> Result<(), E::Fault> {
    let attrs = add_attrs(out, before, arm.attrs.as_slice());
    let group = add_group(out, attrs);
    let pat = add_pat(out, group, &arm.pat);
    let guard = add_guard::<E, X>(out, pat, &arm.guard);
    let head = add_end(out, guard);
    let arrow = add_text(out, head, b" => ");
    let never = add_break(out, arrow, NEVER_BREAK);
    let braces = arm_body_braces::<X>(arm.body.get());
    let opened = open_arm(out, never, braces);
    let inner = add_body_part::<E, X>(out, opened, arm.body.get());
    close_arm(out, inner, braces)
}
/// Emits an `if` and the guard of an arm, if it has one.
fn add_guard<
    E: Emit,
    X: Enclose,
>(
    out: &mut E,
    before: Result<(), E::Fault>,
    guard: &Option<Boxed<Expr>>,
) -> Result<(), E::Fault> {
    match guard {
        None => before,
        Some(guard) => {
            let word = add_text(out, before, b" if ");
            add_expr::<E, X>(out, word, false, guard.get())
        }
    }
}
