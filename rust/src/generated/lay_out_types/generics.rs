//! Made by scripts/rust.sh from crates/lay_out_types/src/generics.rt, which is proved: change that.
//!
//! The layout of generic parameters.
use crate::generated::lay_out_types::calls::{add_text, add_word};
use crate::generated::lay_out_types::lists::{add_close, add_lead};
use crate::generated::lay_out_types::parts::{
    add_const,
    add_lifetime_param,
    add_param_attrs,
};
use crate::generated::lay_out_types::types::{add_bounds, add_type};
use crate::generated::lay_node::{Bound, ConstDefault, GenericParam, Generics, Ty};
use crate::generated::lay_stream::Emit;
/// Emits the layout of generic parameters: nothing if there are none.
pub fn put_generics<E: Emit>(out: &mut E, generics: &Generics) -> Result<(), E::Fault> {
    let params = generics.params.as_slice();
    if params.is_empty() {
        return Ok(());
    }
    add_params(out, Ok(()), params)
}
/// Emits generic parameters in `<` and `>`.
fn add_params<
    E: Emit,
>(
    out: &mut E,
    before: Result<(), E::Fault>,
    params: &[GenericParam],
) -> Result<(), E::Fault> {
    let mut done = before;
    for (index, param) in params.iter().enumerate() {
        done = add_lead(out, done, index == 0, b"<");
        done = add_param(out, done, param);
    }
    add_close(out, done, true, params.is_empty(), b"<>", b">")
}
/// Emits a generic parameter.
fn add_param<
    E: Emit,
>(
    out: &mut E,
    before: Result<(), E::Fault>,
    param: &GenericParam,
) -> Result<(), E::Fault> {
    match param {
        GenericParam::Region { param } => add_lifetime_param(out, before, param),
        GenericParam::Named { attrs, name, bounds, default } => {
            let attrs = add_param_attrs(out, before, attrs.as_slice());
            let name = add_word(out, attrs, name.raw, &name.text);
            let bounds = add_asked(out, name, bounds.as_slice());
            add_default(out, bounds, default)
        }
        GenericParam::Const { attrs, name, ty, default } => {
            let attrs = add_param_attrs(out, before, attrs.as_slice());
            let word = add_text(out, attrs, b"const ");
            let name = add_word(out, word, name.raw, &name.text);
            let colon = add_text(out, name, b": ");
            let ty = add_type(out, colon, ty);
            add_const_default(out, ty, default)
        }
    }
}
/// Emits a `:` and the bounds of a type; nothing if there are none.
pub fn add_asked<
    E: Emit,
>(out: &mut E, before: Result<(), E::Fault>, bounds: &[Bound]) -> Result<(), E::Fault> {
    if bounds.is_empty() {
        return before;
    }
    let colon = add_text(out, before, b": ");
    add_bounds(out, colon, bounds)
}
/// Emits the default of a type parameter, if it has one.
pub fn add_default<
    E: Emit,
>(
    out: &mut E,
    before: Result<(), E::Fault>,
    default: &Option<Ty>,
) -> Result<(), E::Fault> {
    match default {
        None => before,
        Some(ty) => {
            let equals = add_text(out, before, b" = ");
            add_type(out, equals, ty)
        }
    }
}
/// Emits the default of a const parameter, if it has one.
fn add_const_default<
    E: Emit,
>(
    out: &mut E,
    before: Result<(), E::Fault>,
    default: &Option<ConstDefault>,
) -> Result<(), E::Fault> {
    match default {
        None => before,
        Some(default) => {
            let equals = add_text(out, before, b" = ");
            match default {
                ConstDefault::Arg(value) => add_const(out, equals, value),
                ConstDefault::Name(name) => add_word(out, equals, name.raw, &name.text),
            }
        }
    }
}
