//! Made by scripts/rust.sh from crates/lay_out_exprs/src/bodies.rt, which is proved: change that.
//!
//! What is laid out around the bodies of arms and closures.
use crate::generated::lay_code::Expr;
use crate::generated::lay_layout::{Break, Mark};
use crate::generated::lay_ops::may_wear_braces;
use crate::generated::lay_out_heads::calls::{add_break, add_inside};
use crate::generated::lay_out_tokens::notation::{
    CLOSING_SOFT_BREAK,
    NEVER_BREAK,
    SOFT_BREAK,
};
use crate::generated::lay_out_types::calls::add_text;
use crate::generated::lay_out_types::lists::add_end;
use crate::generated::lay_paren_defs::{Enclose, is_body_enclosed};
use crate::generated::lay_stream::Emit;
/// The layout of the body of an arm or of a closure.
#[derive(Clone, Copy,)]
pub enum BodyBraces {
    /// As it is; in an arm with a comma after it.
    Bare,
    /// As it is.
    Unseen,
    /// In braces if it is broken; otherwise as it is, in an arm with a comma after it.
    Marked,
}
/// The break before a body, with a `{` before its newline.
const OPENING_BRACE_BREAK: Break = Break { before: Mark::OpenBrace, ..SOFT_BREAK };
/// The break after a body, with a `}` after its newline.
const CLOSING_BRACE_BREAK: Break = Break {
    after: Mark::CloseBrace,
    ..CLOSING_SOFT_BREAK
};
/// The break after the body of an arm, with a `}` after its newline, or a `,` if it is no newline.
const CLOSING_ARM_BREAK: Break = Break { instead: Mark::Comma, ..CLOSING_BRACE_BREAK };
/// The layout of the body of an arm, if parts get parentheses: in braces if it gets them.
pub fn arm_body_braces<X: Enclose>(body: &Expr) -> BodyBraces {
    if is_body_enclosed::<X>(body) {
        return BodyBraces::Marked;
    }
    arm_braces(body)
}
/// The layout of the body of a closure, if parts get parentheses: in braces if it gets them.
pub fn closure_body_braces<X: Enclose>(body: &Expr) -> BodyBraces {
    if is_body_enclosed::<X>(body) {
        return BodyBraces::Marked;
    }
    closure_braces(body)
}
/// The layout of the body of an arm: a macro call and an unlabelled block as they are, all else in
/// braces if it is broken.
fn arm_braces(body: &Expr) -> BodyBraces {
    match body {
        Expr::Call { .. } => BodyBraces::Bare,
        Expr::Block { label, .. } => {
            match label {
                None => BodyBraces::Unseen,
                Some(_) => BodyBraces::Marked,
            }
        }
        _ => BodyBraces::Marked,
    }
}
/// The layout of the body of a closure: as of an arm, but as it is if it can't have braces.
fn closure_braces(body: &Expr) -> BodyBraces {
    if may_wear_braces(body) { arm_braces(body) } else { BodyBraces::Bare }
}
/// Emits what stands before the body of an arm.
pub fn open_arm<
    E: Emit,
>(
    out: &mut E,
    before: Result<(), E::Fault>,
    braces: BodyBraces,
) -> Result<(), E::Fault> {
    match braces {
        BodyBraces::Marked => {
            let group = add_inside(out, before);
            add_break(out, group, OPENING_BRACE_BREAK)
        }
        _ => before,
    }
}
/// Emits what stands after the body of an arm.
pub fn close_arm<
    E: Emit,
>(
    out: &mut E,
    before: Result<(), E::Fault>,
    braces: BodyBraces,
) -> Result<(), E::Fault> {
    match braces {
        BodyBraces::Bare => add_text(out, before, b","),
        BodyBraces::Unseen => before,
        BodyBraces::Marked => {
            let line = add_break(out, before, CLOSING_ARM_BREAK);
            add_end(out, line)
        }
    }
}
/// Emits what stands before the body of a closure.
pub fn open_closure<
    E: Emit,
>(
    out: &mut E,
    before: Result<(), E::Fault>,
    braces: BodyBraces,
) -> Result<(), E::Fault> {
    match braces {
        BodyBraces::Marked => {
            let never = add_break(out, before, NEVER_BREAK);
            let group = add_inside(out, never);
            add_break(out, group, OPENING_BRACE_BREAK)
        }
        _ => before,
    }
}
/// Emits what stands after the body of a closure.
pub fn close_closure<
    E: Emit,
>(
    out: &mut E,
    before: Result<(), E::Fault>,
    braces: BodyBraces,
) -> Result<(), E::Fault> {
    match braces {
        BodyBraces::Marked => {
            let line = add_break(out, before, CLOSING_BRACE_BREAK);
            add_end(out, line)
        }
        _ => before,
    }
}
