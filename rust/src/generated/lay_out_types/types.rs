//! Made by scripts/rust.sh from crates/lay_out_types/src/types.rt, which is proved: change that.
//!
//! The layout of paths, generic arguments, bounds and types.
use crate::generated::lay_out_types::calls::{
    add_call,
    add_either,
    add_if,
    add_text,
    add_tokens,
    add_word,
};
use crate::generated::lay_out_types::lists::{
    add_begin,
    add_close,
    add_end,
    add_lead,
    add_plus,
};
use crate::generated::lay_out_types::parts::{
    add_abi,
    add_binder,
    add_captures,
    add_const,
    add_param_attrs,
    add_param_name,
    add_reference,
};
use crate::generated::lay_node::{
    Arg,
    Args,
    Bound,
    Boxed,
    Constraint,
    FuncParam,
    Path,
    PathStart,
    PathStyle,
    Ty,
};
use crate::generated::lay_stream::Emit;
/// Emits the layout of a path.
pub fn put_path<
    E: Emit,
>(out: &mut E, path: &Path, style: PathStyle) -> Result<(), E::Fault> {
    add_path(out, Ok(()), path, style)
}
/// Emits the layout of the generic arguments of a segment.
pub fn put_args<
    E: Emit,
>(out: &mut E, args: &Args, style: PathStyle) -> Result<(), E::Fault> {
    add_args(out, Ok(()), args, style)
}
/// Emits the layout of bounds.
pub fn put_bounds<E: Emit>(out: &mut E, bounds: &[Bound]) -> Result<(), E::Fault> {
    add_bounds(out, Ok(()), bounds)
}
/// Emits the layout of a type.
pub fn put_type<E: Emit>(out: &mut E, ty: &Ty) -> Result<(), E::Fault> {
    add_type(out, Ok(()), ty)
}
/// Emits a path.
pub fn add_path<
    E: Emit,
>(
    out: &mut E,
    before: Result<(), E::Fault>,
    path: &Path,
    style: PathStyle,
) -> Result<(), E::Fault> {
    let segments = path.segments.as_slice();
    let mut done = add_start(out, before, &path.start);
    for (index, (word, args)) in segments.iter().enumerate() {
        done = add_if(out, done, index != 0, b"::");
        done = add_word(out, done, word.raw, &word.text);
        done = add_args(out, done, args, style);
    }
    done
}
/// Emits the beginning of a path.
fn add_start<
    E: Emit,
>(out: &mut E, before: Result<(), E::Fault>, start: &PathStart) -> Result<(), E::Fault> {
    match start {
        PathStart::Local => before,
        PathStart::Global => add_text(out, before, b"::"),
        PathStart::Qualified { ty, of } => {
            let opener = add_text(out, before, b"<");
            let ty = add_type(out, opener, ty.get());
            match of {
                None => add_text(out, ty, b">::"),
                Some(path) => {
                    let word = add_text(out, ty, b" as ");
                    let path = add_path(out, word, path.get(), PathStyle::Kind);
                    add_text(out, path, b">::")
                }
            }
        }
    }
}
/// Emits the generic arguments of a segment: in expressions after `::`, unless they are in
/// parentheses.
pub fn add_args<
    E: Emit,
>(
    out: &mut E,
    before: Result<(), E::Fault>,
    args: &Args,
    style: PathStyle,
) -> Result<(), E::Fault> {
    match args {
        Args::None => before,
        Args::Angle { args } => {
            match style {
                PathStyle::Code => {
                    let colons = add_text(out, before, b"::");
                    add_angles(out, colons, args.as_slice())
                }
                PathStyle::Kind => add_angles(out, before, args.as_slice()),
            }
        }
        Args::Round { inputs, output } => {
            let inputs = add_types(out, before, inputs.as_slice());
            add_output(out, inputs, output)
        }
    }
}
/// Emits generic arguments in `<` and `>`.
pub fn add_angles<
    E: Emit,
>(out: &mut E, before: Result<(), E::Fault>, args: &[Arg]) -> Result<(), E::Fault> {
    let mut done = before;
    for (index, arg) in args.iter().enumerate() {
        done = add_lead(out, done, index == 0, b"<");
        done = add_arg(out, done, arg);
    }
    add_close(out, done, true, args.is_empty(), b"<>", b">")
}
/// Emits a generic argument.
fn add_arg<
    E: Emit,
>(out: &mut E, before: Result<(), E::Fault>, arg: &Arg) -> Result<(), E::Fault> {
    match arg {
        Arg::Region { lifetime } => add_text(out, before, lifetime.text.as_bytes()),
        Arg::Plain { ty } => add_type(out, before, ty),
        Arg::Const { value } => add_const(out, before, value),
        Arg::Named { name, args, constraint } => {
            let name = add_word(out, before, name.raw, &name.text);
            let args = add_args(out, name, args, PathStyle::Kind);
            add_constraint(out, args, constraint)
        }
    }
}
/// Emits the constraint of a name among generic arguments.
fn add_constraint<
    E: Emit,
>(
    out: &mut E,
    before: Result<(), E::Fault>,
    constraint: &Constraint,
) -> Result<(), E::Fault> {
    match constraint {
        Constraint::Equal { ty } => {
            let equals = add_text(out, before, b" = ");
            add_type(out, equals, ty)
        }
        Constraint::EqualConst { value } => {
            let equals = add_text(out, before, b" = ");
            add_const(out, equals, value)
        }
        Constraint::Limit { bounds } => {
            let colon = add_text(out, before, b": ");
            add_bounds(out, colon, bounds.as_slice())
        }
    }
}
/// Emits bounds, with a `+` between them.
pub fn add_bounds<
    E: Emit,
>(out: &mut E, before: Result<(), E::Fault>, bounds: &[Bound]) -> Result<(), E::Fault> {
    let mut done = add_begin(out, before);
    for (index, bound) in bounds.iter().enumerate() {
        done = add_plus(out, done, index == 0);
        done = add_bound(out, done, bound);
    }
    add_end(out, done)
}
/// Emits a bound.
fn add_bound<
    E: Emit,
>(out: &mut E, before: Result<(), E::Fault>, bound: &Bound) -> Result<(), E::Fault> {
    match bound {
        Bound::Outlives { lifetime } => add_text(out, before, lifetime.text.as_bytes()),
        Bound::Meets { parens, maybe, binder, path } => {
            let opener = add_if(out, before, *parens, b"(");
            let question = add_if(out, opener, *maybe, b"?");
            let binder = add_binder(out, question, binder);
            let path = add_path(out, binder, path, PathStyle::Kind);
            add_if(out, path, *parens, b")")
        }
        Bound::Captures { captured } => {
            let word = add_text(out, before, b"use");
            add_captures(out, word, captured.as_slice())
        }
    }
}
/// Emits a type.
pub fn add_type<
    E: Emit,
>(out: &mut E, before: Result<(), E::Fault>, ty: &Ty) -> Result<(), E::Fault> {
    match ty {
        Ty::Path { path } => add_path(out, before, path, PathStyle::Kind),
        Ty::Call { call } => add_call(out, before, call),
        Ty::Paren { inner } => {
            let opener = add_text(out, before, b"(");
            let inner = add_type(out, opener, inner.get());
            add_text(out, inner, b")")
        }
        Ty::Tuple { elements } => {
            let elements = elements.as_slice();
            match elements {
                [] => add_text(out, before, b"()"),
                [element] => {
                    let opener = add_text(out, before, b"(");
                    let element = add_type(out, opener, element);
                    add_text(out, element, b",)")
                }
                [_, _, ..] => add_types(out, before, elements),
            }
        }
        Ty::Never => add_text(out, before, b"!"),
        Ty::Infer => add_text(out, before, b"_"),
        Ty::Ptr { mutable, inner } => {
            let word = add_either(out, before, *mutable, b"*mut ", b"*const ");
            add_type(out, word, inner.get())
        }
        Ty::Ref { lifetime, mutable, inner } => {
            let lifetime = add_reference(out, before, lifetime);
            let word = add_if(out, lifetime, *mutable, b"mut ");
            add_type(out, word, inner.get())
        }
        Ty::Slice { inner } => {
            let opener = add_text(out, before, b"[");
            let inner = add_type(out, opener, inner.get());
            add_text(out, inner, b"]")
        }
        Ty::Array { inner, length } => {
            let opener = add_text(out, before, b"[");
            let inner = add_type(out, opener, inner.get());
            let semicolon = add_text(out, inner, b"; ");
            let length = add_tokens(out, semicolon, length);
            add_text(out, length, b"]")
        }
        Ty::Func { binder, is_unsafe, abi, params, variadic, output } => {
            let binder = add_binder(out, before, binder.get());
            let word = add_if(out, binder, *is_unsafe, b"unsafe ");
            let abi = add_abi(out, word, abi.get());
            let word = add_text(out, abi, b"fn");
            let params = add_params(out, word, params.as_slice(), *variadic);
            add_output(out, params, output)
        }
        Ty::Bounds { dynamic, bounds } => {
            let word = add_either(out, before, *dynamic, b"dyn ", b"impl ");
            add_bounds(out, word, bounds.as_slice())
        }
    }
}
/// Emits types in parentheses.
fn add_types<
    E: Emit,
>(out: &mut E, before: Result<(), E::Fault>, types: &[Ty]) -> Result<(), E::Fault> {
    let mut done = before;
    for (index, ty) in types.iter().enumerate() {
        done = add_lead(out, done, index == 0, b"(");
        done = add_type(out, done, ty);
    }
    add_close(out, done, true, types.is_empty(), b"()", b")")
}
/// Emits the parameters of a function type in parentheses, with a `...` last if the function is
/// variadic.
fn add_params<
    E: Emit,
>(
    out: &mut E,
    before: Result<(), E::Fault>,
    params: &[FuncParam],
    variadic: bool,
) -> Result<(), E::Fault> {
    let mut done = before;
    for (index, param) in params.iter().enumerate() {
        done = add_lead(out, done, index == 0, b"(");
        done = add_param_attrs(out, done, param.attrs.as_slice());
        done = add_param_name(out, done, &param.name);
        done = add_type(out, done, &param.ty);
    }
    if variadic {
        let lead = add_lead(out, done, params.is_empty(), b"(");
        let dots = add_text(out, lead, b"...");
        return add_close(out, dots, false, false, b"()", b")");
    }
    add_close(out, done, true, params.is_empty(), b"()", b")")
}
/// Emits a return type, if there is one.
fn add_output<
    E: Emit,
>(
    out: &mut E,
    before: Result<(), E::Fault>,
    output: &Option<Boxed<Ty>>,
) -> Result<(), E::Fault> {
    match output {
        None => before,
        Some(ty) => {
            let arrow = add_text(out, before, b" -> ");
            add_type(out, arrow, ty.get())
        }
    }
}
