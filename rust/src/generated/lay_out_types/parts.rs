//! Made by scripts/rust.sh from crates/lay_out_types/src/parts.rt, which is proved: change that.
//!
//! The layout of the parts of types and generic parameters that hold no type.
use crate::generated::lay_out_types::calls::{
    add_attr,
    add_braces,
    add_either,
    add_literal,
    add_text,
    add_word,
};
use crate::generated::lay_out_types::lists::{add_close, add_lead};
use crate::generated::lay_node::{
    Abi,
    Attr,
    Binder,
    Capture,
    ConstArg,
    GivenName,
    Lifetime,
    LifetimeParam,
};
use crate::generated::lay_stream::Emit;
/// Emits attributes of a parameter.
pub fn add_param_attrs<
    E: Emit,
>(out: &mut E, before: Result<(), E::Fault>, attrs: &[Attr]) -> Result<(), E::Fault> {
    let mut done = before;
    for attr in attrs {
        done = add_attr(out, done, attr);
    }
    done
}
/// Emits a `:` and the bounds of a lifetime; nothing if there are none.
pub(crate) fn add_outlived<
    E: Emit,
>(
    out: &mut E,
    before: Result<(), E::Fault>,
    lifetimes: &[Lifetime],
) -> Result<(), E::Fault> {
    let mut done = before;
    for (index, lifetime) in lifetimes.iter().enumerate() {
        done = add_either(out, done, index == 0, b": ", b" + ");
        done = add_text(out, done, lifetime.text.as_bytes());
    }
    done
}
/// Emits a lifetime parameter.
pub(crate) fn add_lifetime_param<
    E: Emit,
>(
    out: &mut E,
    before: Result<(), E::Fault>,
    param: &LifetimeParam,
) -> Result<(), E::Fault> {
    let attrs = add_param_attrs(out, before, param.attrs.as_slice());
    let lifetime = add_text(out, attrs, param.lifetime.text.as_bytes());
    add_outlived(out, lifetime, param.bounds.as_slice())
}
/// Emits a binder, and a blank after it.
pub(crate) fn add_binder<
    E: Emit,
>(
    out: &mut E,
    before: Result<(), E::Fault>,
    binder: &Option<Binder>,
) -> Result<(), E::Fault> {
    match binder {
        None => before,
        Some(binder) => {
            let word = add_text(out, before, b"for");
            let params = add_lifetime_params(out, word, binder.params.as_slice());
            add_text(out, params, b" ")
        }
    }
}
/// Emits lifetime parameters in `<` and `>`.
fn add_lifetime_params<
    E: Emit,
>(
    out: &mut E,
    before: Result<(), E::Fault>,
    params: &[LifetimeParam],
) -> Result<(), E::Fault> {
    let mut done = before;
    for (index, param) in params.iter().enumerate() {
        done = add_lead(out, done, index == 0, b"<");
        done = add_lifetime_param(out, done, param);
    }
    add_close(out, done, true, params.is_empty(), b"<>", b">")
}
/// Emits the `<..>` of `use<..>`.
pub(crate) fn add_captures<
    E: Emit,
>(
    out: &mut E,
    before: Result<(), E::Fault>,
    captured: &[Capture],
) -> Result<(), E::Fault> {
    let mut done = before;
    for (index, capture) in captured.iter().enumerate() {
        done = add_lead(out, done, index == 0, b"<");
        done = add_capture(out, done, capture);
    }
    add_close(out, done, true, captured.is_empty(), b"<>", b">")
}
/// Emits a lifetime or a word of `use<..>`.
fn add_capture<
    E: Emit,
>(out: &mut E, before: Result<(), E::Fault>, capture: &Capture) -> Result<(), E::Fault> {
    match capture {
        Capture::Region { lifetime } => add_text(out, before, lifetime.text.as_bytes()),
        Capture::Word { word } => add_word(out, before, word.raw, &word.text),
    }
}
/// Emits a const generic argument.
pub(crate) fn add_const<
    E: Emit,
>(out: &mut E, before: Result<(), E::Fault>, value: &ConstArg) -> Result<(), E::Fault> {
    match value {
        ConstArg::Literal(literal) => add_literal(out, before, literal),
        ConstArg::Negative(literal) => {
            let minus = add_text(out, before, b"-");
            add_literal(out, minus, literal)
        }
        ConstArg::Braces(tokens) => add_braces(out, before, tokens),
    }
}
/// Emits an ABI, and a blank after it.
pub fn add_abi<
    E: Emit,
>(out: &mut E, before: Result<(), E::Fault>, abi: &Option<Abi>) -> Result<(), E::Fault> {
    match abi {
        None => before,
        Some(abi) => {
            let word = add_text(out, before, b"extern ");
            match &abi.name {
                None => word,
                Some(name) => {
                    let name = add_literal(out, word, name);
                    add_text(out, name, b" ")
                }
            }
        }
    }
}
/// Emits the `&` of a reference, and its lifetime with a blank after it.
pub fn add_reference<
    E: Emit,
>(
    out: &mut E,
    before: Result<(), E::Fault>,
    lifetime: &Option<Lifetime>,
) -> Result<(), E::Fault> {
    let reference = add_text(out, before, b"&");
    match lifetime {
        None => reference,
        Some(lifetime) => {
            let lifetime = add_text(out, reference, lifetime.text.as_bytes());
            add_text(out, lifetime, b" ")
        }
    }
}
/// Emits the name of a parameter of a function type, and a `:` after it.
pub(crate) fn add_param_name<
    E: Emit,
>(
    out: &mut E,
    before: Result<(), E::Fault>,
    name: &Option<GivenName>,
) -> Result<(), E::Fault> {
    match name {
        None => before,
        Some(name) => add_given_name(out, before, name),
    }
}
/// Emits a name or a `_`, and a `:` after it.
pub fn add_given_name<
    E: Emit,
>(out: &mut E, before: Result<(), E::Fault>, name: &GivenName) -> Result<(), E::Fault> {
    match name {
        GivenName::Underscore => {
            let name = add_text(out, before, b"_");
            add_text(out, name, b": ")
        }
        GivenName::Name(name) => {
            let name = add_word(out, before, name.raw, &name.text);
            add_text(out, name, b": ")
        }
    }
}
