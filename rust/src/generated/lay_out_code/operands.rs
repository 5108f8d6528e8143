//! Made by scripts/rust.sh from crates/lay_out_code/src/operands.rt, which is proved: change that.
//!
//! The layout of operands, targets and steps, and of the fields of struct literals.
use crate::generated::lay_out_code::exprs::{add_expr, add_exprs, add_optional};
use crate::generated::lay_code::{Boxed, Expr, FieldExpr, Op, Step};
use crate::generated::lay_out_exprs::add_generics;
use crate::generated::lay_out_exprs::flags::either;
use crate::generated::lay_out_exprs::operators::{add_assignment, add_operator};
use crate::generated::lay_out_exprs::steps::{add_step_break, is_method};
use crate::generated::lay_out_pats::{add_attrs, add_brace};
use crate::generated::lay_out_types::calls::{add_either, add_text, add_word};
use crate::generated::lay_out_types::lists::{add_close, add_lead};
use crate::generated::lay_paren_defs::Enclose;
use crate::generated::lay_stream::Emit;
/// Emits the `{` of a struct literal and its fields; nothing if it has no fields.
pub fn add_fields<
    E: Emit,
    X: Enclose,
>(
    out: &mut E,
    before: Result<(), E::Fault>,
    fields: &[FieldExpr],
) -> Result<(), E::Fault> {
    let mut done = before;
    for (index, field) in fields.iter().enumerate() {
        done = add_brace(out, done, index == 0);
        done = add_field::<E, X>(out, done, field);
    }
    done
}
/// Emits the `..` of a struct literal and its base, if it has one. Before them stands the `{` if
/// `first`, which says that there are no fields, else a comma.
pub fn add_base<
    E: Emit,
    X: Enclose,
>(
    out: &mut E,
    before: Result<(), E::Fault>,
    first: bool,
    base: &Option<Boxed<Expr>>,
) -> Result<(), E::Fault> {
    let lead = add_brace(out, before, first);
    let dots = add_text(out, lead, b"..");
    add_optional::<E, X>(out, dots, true, base)
}
/// Emits a field of a struct literal, with its attributes.
fn add_field<
    E: Emit,
    X: Enclose,
>(out: &mut E, before: Result<(), E::Fault>, field: &FieldExpr) -> Result<(), E::Fault> {
    match field {
        FieldExpr::Named { attrs, name, value } => {
            let attrs = add_attrs(out, before, attrs.as_slice());
            let name = add_word(out, attrs, name.raw, &name.text);
            let colon = add_text(out, name, b": ");
            add_expr::<E, X>(out, colon, false, value.get())
        }
        FieldExpr::Numbered { attrs, index, value } => {
            let attrs = add_attrs(out, before, attrs.as_slice());
            let index = add_text(out, attrs, index.as_bytes());
            let colon = add_text(out, index, b": ");
            add_expr::<E, X>(out, colon, false, value.get())
        }
        FieldExpr::Short { attrs, name } => {
            let attrs = add_attrs(out, before, attrs.as_slice());
            add_word(out, attrs, name.raw, &name.text)
        }
    }
}
/// Emits the operands of a chain after the first one, each with its operator before it.
pub fn add_operands<
    E: Emit,
    X: Enclose,
>(
    out: &mut E,
    before: Result<(), E::Fault>,
    operands: &[(Op, Boxed<Expr>)],
) -> Result<(), E::Fault> {
    let mut done = before;
    for (op, operand) in operands {
        done = add_operator(out, done, *op);
        done = add_expr::<E, X>(out, done, false, operand.get());
    }
    done
}
/// Emits the targets of an assignment, each with its operator after it.
pub fn add_targets<
    E: Emit,
    X: Enclose,
>(
    out: &mut E,
    before: Result<(), E::Fault>,
    point: bool,
    targets: &[(Boxed<Expr>, Op)],
) -> Result<(), E::Fault> {
    let mut done = before;
    let mut point = point;
    for (target, op) in targets {
        done = add_expr::<E, X>(out, done, point, target.get());
        done = add_assignment(out, done, *op);
        point = false;
    }
    done
}
/// Emits postfix steps. The flags say that the text before them ends in a `.`, and that several of
/// them are method calls: then a break stands before each method call but the first.
pub fn add_steps<
    E: Emit,
    X: Enclose,
>(
    out: &mut E,
    before: Result<(), E::Fault>,
    point: bool,
    several: bool,
    steps: &[Step],
) -> Result<(), E::Fault> {
    let mut done = before;
    let mut point = point;
    let mut behind = false;
    for step in steps {
        let method = is_method(step);
        done = add_step_break(out, done, several, behind, method);
        done = add_step::<E, X>(out, done, point, step);
        point = false;
        behind = either(behind, method);
    }
    done
}
/// Emits a step.
fn add_step<
    E: Emit,
    X: Enclose,
>(
    out: &mut E,
    before: Result<(), E::Fault>,
    point: bool,
    step: &Step,
) -> Result<(), E::Fault> {
    match step {
        Step::Field { name } => {
            let dot = add_either(out, before, point, b" .", b".");
            add_word(out, dot, name.raw, &name.text)
        }
        Step::TupleIndex { index } => {
            let dot = add_either(out, before, point, b" .", b".");
            add_text(out, dot, index.as_bytes())
        }
        Step::Method { name, generics, args } => {
            let dot = add_either(out, before, point, b" .", b".");
            let name = add_word(out, dot, name.raw, &name.text);
            let generics = add_generics(out, name, generics);
            add_exprs::<E, X>(out, generics, args.as_slice(), b"(", b"()", b")")
        }
        Step::Apply { args } => {
            add_exprs::<E, X>(out, before, args.as_slice(), b"(", b"()", b")")
        }
        Step::Index { index } => {
            let opener = add_lead(out, before, true, b"[");
            let index = add_expr::<E, X>(out, opener, false, index.get());
            add_close(out, index, false, false, b"[]", b"]")
        }
        Step::Try => add_text(out, before, b"?"),
        Step::Await => add_either(out, before, point, b" .await", b".await"),
    }
}
