//! Made by scripts/rust.sh from crates/lay_out_code/src/exprs.rt, which is proved: change that.
//!
//! The layout of expressions.
use crate::generated::lay_out_code::blocks::{add_block, add_soft};
use crate::generated::lay_out_code::branches::{
    add_arms,
    add_branches,
    add_else,
    add_scrutinee,
};
use crate::generated::lay_out_code::conditions::add_condition;
use crate::generated::lay_out_code::operands::{
    add_base,
    add_fields,
    add_operands,
    add_steps,
    add_targets,
};
use crate::generated::lay_code::{Boxed, Expr, PathStyle};
use crate::generated::lay_out_exprs::add_closure_head;
use crate::generated::lay_out_exprs::blocks::add_labelled;
use crate::generated::lay_out_exprs::bodies::{
    close_closure,
    closure_body_braces,
    open_closure,
};
use crate::generated::lay_out_exprs::flags::both;
use crate::generated::lay_out_exprs::operators::{add_casts, add_label, add_prefixes};
use crate::generated::lay_out_exprs::points::{
    optional_ends_in_point,
    part_ends_in_point,
};
use crate::generated::lay_out_exprs::steps::{
    add_steps_end,
    add_steps_start,
    are_several_methods,
};
use crate::generated::lay_out_pats::{
    add_closing_brace,
    add_dots_behind,
    add_group,
    add_pat,
};
use crate::generated::lay_out_types::calls::{
    add_call,
    add_if,
    add_literal,
    add_text,
    add_tokens,
};
use crate::generated::lay_out_types::lists::{add_begin, add_close, add_end, add_lead};
use crate::generated::lay_out_types::{add_path, add_type};
use crate::generated::lay_paren_defs::{AsIs, Enclose, is_body_enclosed};
use crate::generated::lay_stream::Emit;
/// Emits the layout of an expression.
pub fn put_expr<E: Emit>(out: &mut E, node: &Expr) -> Result<(), E::Fault> {
    add_expr::<E, AsIs>(out, Ok(()), false, node)
}
/// Emits an expression that is a part of another node: in parentheses, if parts get them. The flag
/// says that the text before it ends in a `.`.
pub fn add_expr<
    E: Emit,
    X: Enclose,
>(
    out: &mut E,
    before: Result<(), E::Fault>,
    point: bool,
    node: &Expr,
) -> Result<(), E::Fault> {
    if X::on() {
        let opener = add_text(out, before, b"(");
        let inner = add_whole::<E, X>(out, opener, false, node);
        return add_text(out, inner, b")");
    }
    add_whole::<E, X>(out, before, point, node)
}
/// Emits the body of an arm or of a closure, in parentheses, if it gets them.
pub fn add_body_part<
    E: Emit,
    X: Enclose,
>(out: &mut E, before: Result<(), E::Fault>, body: &Expr) -> Result<(), E::Fault> {
    if is_body_enclosed::<X>(body) {
        return add_expr::<E, X>(out, before, false, body);
    }
    add_whole::<E, X>(out, before, false, body)
}
/// Emits an expression, whose parts are put in parentheses or not. The flag says that the text
/// before it ends in a `.`.
pub fn add_whole<
    E: Emit,
    X: Enclose,
>(
    out: &mut E,
    before: Result<(), E::Fault>,
    point: bool,
    node: &Expr,
) -> Result<(), E::Fault> {
    match node {
        Expr::Lit { literal } => add_literal(out, before, literal),
        Expr::Path { path } => add_path(out, before, path, PathStyle::Code),
        Expr::Underscore => add_text(out, before, b"_"),
        Expr::Call { call } => add_call(out, before, call),
        Expr::Paren { inner } => {
            let opener = add_text(out, before, b"(");
            let inner = add_expr::<E, X>(out, opener, false, inner.get());
            add_text(out, inner, b")")
        }
        Expr::Continue { label } => {
            let word = add_text(out, before, b"continue");
            add_label(out, word, label)
        }
        Expr::Tuple { elements } => add_tuple::<E, X>(out, before, elements.as_slice()),
        Expr::Array { elements } => {
            add_exprs::<E, X>(out, before, elements.as_slice(), b"[", b"[]", b"]")
        }
        Expr::Repeat { element, length } => {
            let opener = add_text(out, before, b"[");
            let element = add_expr::<E, X>(out, opener, false, element.get());
            let semicolon = add_text(out, element, b"; ");
            let length = add_tokens(out, semicolon, length);
            add_text(out, length, b"]")
        }
        Expr::Struct { path, fields, base } => {
            let path = add_path(out, before, path, PathStyle::Code);
            let fields = fields.as_slice();
            let inner = add_fields::<E, X>(out, path, fields);
            match base {
                None => add_closing_brace(out, inner, true, fields.is_empty()),
                Some(base) => {
                    let base = add_base::<E, X>(out, inner, fields.is_empty(), base);
                    add_closing_brace(out, base, false, false)
                }
            }
        }
        Expr::Chain { first, rest } => {
            let group = add_begin(out, before);
            let first = add_expr::<E, X>(out, group, point, first.get());
            let rest = add_operands::<E, X>(out, first, rest.as_slice());
            add_end(out, rest)
        }
        Expr::Cast { operand, types } => {
            let operand = add_expr::<E, X>(out, before, point, operand.get());
            add_casts(out, operand, types.as_slice())
        }
        Expr::Unary { prefixes, operand } => {
            let prefixes = prefixes.as_slice();
            let signs = add_prefixes(out, before, prefixes);
            add_expr::<E, X>(out, signs, both(point, prefixes.is_empty()), operand.get())
        }
        Expr::Range { start, inclusive, end } => {
            let first = add_optional::<E, X>(out, before, point, start);
            let dots = add_dots_behind(
                out,
                first,
                *inclusive,
                optional_ends_in_point::<X>(point, start),
            );
            add_optional::<E, X>(out, dots, !*inclusive, end)
        }
        Expr::Assign { targets, value } => {
            let targets = targets.as_slice();
            let assigned = add_targets::<E, X>(out, before, point, targets);
            add_expr::<E, X>(out, assigned, both(point, targets.is_empty()), value.get())
        }
        Expr::Postfix { base, steps } => {
            let base = base.get();
            let steps = steps.as_slice();
            let several = are_several_methods(steps);
            let start = add_steps_start(out, before, several);
            let first = add_expr::<E, X>(out, start, point, base);
            let rest = add_steps::<
                E,
                X,
            >(out, first, part_ends_in_point::<X>(point, base), several, steps);
            add_steps_end(out, rest, several)
        }
        Expr::Block { label, body } => {
            let label = add_labelled(out, before, label);
            add_block::<E, X>(out, label, false, body)
        }
        Expr::Unsafe { body } => {
            let word = add_text(out, before, b"unsafe");
            add_soft::<E, X>(out, word, body)
        }
        Expr::ConstBlock { body } => {
            let word = add_text(out, before, b"const");
            add_soft::<E, X>(out, word, body)
        }
        Expr::Async { moves, body } => {
            let word = add_text(out, before, b"async");
            let word = add_if(out, word, *moves, b" move");
            add_block::<E, X>(out, word, true, body)
        }
        Expr::If { branches, otherwise } => {
            let branches = add_branches::<E, X>(out, before, branches.as_slice());
            add_else::<E, X>(out, branches, otherwise)
        }
        Expr::Match { scrutinee, attrs, arms } => {
            let head = add_scrutinee::<E, X>(out, before, scrutinee.get());
            add_arms::<E, X>(out, head, attrs.as_slice(), arms.as_slice())
        }
        Expr::Loop { label, body } => {
            let label = add_labelled(out, before, label);
            let word = add_text(out, label, b"loop");
            add_block::<E, X>(out, word, true, body)
        }
        Expr::While { label, condition, body } => {
            let label = add_labelled(out, before, label);
            let head = add_condition::<E, X>(out, label, b"while ", condition);
            add_block::<E, X>(out, head, true, body)
        }
        Expr::For { label, pat, iterated, body } => {
            let label = add_labelled(out, before, label);
            let group = add_group(out, label);
            let word = add_text(out, group, b"for ");
            let pat = add_pat(out, word, pat);
            let word = add_text(out, pat, b" in ");
            let iterated = add_expr::<E, X>(out, word, false, iterated.get());
            let head = add_end(out, iterated);
            add_block::<E, X>(out, head, true, body)
        }
        Expr::Closure { is_async, moves, params, body } => {
            let head = add_closure_head(
                out,
                before,
                *is_async,
                *moves,
                params.as_slice(),
            );
            let blank = add_text(out, head, b" ");
            add_closure_body::<E, X>(out, blank, body.get())
        }
        Expr::TypedClosure { is_async, moves, params, output, body } => {
            let head = add_closure_head(
                out,
                before,
                *is_async,
                *moves,
                params.as_slice(),
            );
            let arrow = add_text(out, head, b" -> ");
            let output = add_type(out, arrow, output);
            add_block::<E, X>(out, output, true, body)
        }
        Expr::Return { operand } => {
            let word = add_text(out, before, b"return");
            add_operand::<E, X>(out, word, operand)
        }
        Expr::Break { label, operand } => {
            let word = add_text(out, before, b"break");
            let label = add_label(out, word, label);
            add_operand::<E, X>(out, label, operand)
        }
    }
}
/// Emits a tuple, which has a comma after a single element.
fn add_tuple<
    E: Emit,
    X: Enclose,
>(out: &mut E, before: Result<(), E::Fault>, elements: &[Expr]) -> Result<(), E::Fault> {
    match elements {
        [] => add_text(out, before, b"()"),
        [element] => {
            let opener = add_text(out, before, b"(");
            let element = add_expr::<E, X>(out, opener, false, element);
            add_text(out, element, b",)")
        }
        [_, _, ..] => add_exprs::<E, X>(out, before, elements, b"(", b"()", b")"),
    }
}
/// Emits expressions in brackets, with a `,` between them. Without an expression the brackets are
/// one text.
pub fn add_exprs<
    E: Emit,
    X: Enclose,
>(
    out: &mut E,
    before: Result<(), E::Fault>,
    exprs: &[Expr],
    opener: &[u8],
    both: &[u8],
    closer: &[u8],
) -> Result<(), E::Fault> {
    let mut done = before;
    for (index, expr) in exprs.iter().enumerate() {
        done = add_lead(out, done, index == 0, opener);
        done = add_expr::<E, X>(out, done, false, expr);
    }
    add_close(out, done, true, exprs.is_empty(), both, closer)
}
/// Emits an expression, if there is one.
pub fn add_optional<
    E: Emit,
    X: Enclose,
>(
    out: &mut E,
    before: Result<(), E::Fault>,
    point: bool,
    node: &Option<Boxed<Expr>>,
) -> Result<(), E::Fault> {
    match node {
        None => before,
        Some(node) => add_expr::<E, X>(out, before, point, node.get()),
    }
}
/// Emits the body of a closure. If it is broken, it gets braces, if it may stand in them.
fn add_closure_body<
    E: Emit,
    X: Enclose,
>(out: &mut E, before: Result<(), E::Fault>, body: &Expr) -> Result<(), E::Fault> {
    let braces = closure_body_braces::<X>(body);
    let opened = open_closure(out, before, braces);
    let inner = add_body_part::<E, X>(out, opened, body);
    close_closure(out, inner, braces)
}
/// Emits a blank and the operand of a `return` or a `break`, if there is one.
fn add_operand<
    E: Emit,
    X: Enclose,
>(
    out: &mut E,
    before: Result<(), E::Fault>,
    operand: &Option<Boxed<Expr>>,
) -> Result<(), E::Fault> {
    match operand {
        None => before,
        Some(operand) => {
            let blank = add_text(out, before, b" ");
            add_expr::<E, X>(out, blank, false, operand.get())
        }
    }
}
