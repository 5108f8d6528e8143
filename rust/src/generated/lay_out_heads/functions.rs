//! Made by scripts/rust.sh from crates/lay_out_heads/src/functions.rt, which is proved: change that.
//!
//! The layout of the heads of functions.
use crate::generated::lay_out_heads::calls::add_generics;
use crate::generated::lay_out_heads::loops::{Part, add_parens};
use crate::generated::lay_node::{FnHead, Param, ParamKind, Safety, Ty};
use crate::generated::lay_out_pats::add_pat;
use crate::generated::lay_out_types::add_type;
use crate::generated::lay_out_types::calls::{add_if, add_text, add_word};
use crate::generated::lay_out_types::parts::{add_abi, add_param_attrs, add_reference};
use crate::generated::lay_stream::Emit;
/// Emits the layout of the head of a function.
pub fn put_fn_head<E: Emit>(out: &mut E, head: &FnHead) -> Result<(), E::Fault> {
    let word = add_if(out, Ok(()), head.is_const, b"const ");
    let word = add_if(out, word, head.is_async, b"async ");
    let safety = add_safety(out, word, head.safety);
    let abi = add_abi(out, safety, &head.abi);
    let word = add_text(out, abi, b"fn ");
    add_signature(out, word, head)
}
/// Emits `unsafe` or `safe` and a blank, if the function has the word.
fn add_safety<
    E: Emit,
>(
    out: &mut E,
    before: Result<(), E::Fault>,
    safety: Option<Safety>,
) -> Result<(), E::Fault> {
    match safety {
        None => before,
        Some(Safety::Unsafe) => add_text(out, before, b"unsafe "),
        Some(Safety::Safe) => add_text(out, before, b"safe "),
    }
}
/// Emits the head of a function after its `fn`.
fn add_signature<
    E: Emit,
>(out: &mut E, before: Result<(), E::Fault>, head: &FnHead) -> Result<(), E::Fault> {
    let name = add_word(out, before, head.name.raw, &head.name.text);
    let generics = add_generics(out, name, &head.generics);
    let params = add_params(out, generics, head.params.as_slice());
    add_output(out, params, &head.output)
}
/// Emits the parameters of a function in parentheses.
fn add_params<
    E: Emit,
>(out: &mut E, before: Result<(), E::Fault>, params: &[Param]) -> Result<(), E::Fault> {
    add_parens(out, before, params, !ends_variadic(params))
}
/// Whether the last parameter is a `...`.
fn ends_variadic(params: &[Param]) -> bool {
    let mut ends = false;
    for param in params {
        ends = is_variadic(&param.kind);
    }
    ends
}
/// Whether a parameter is a `...`.
fn is_variadic(kind: &ParamKind) -> bool {
    matches!(kind, ParamKind::Variadic | ParamKind::NamedVariadic { .. })
}
impl Part for Param {
    fn add<
        E: Emit,
    >(&self, out: &mut E, before: Result<(), E::Fault>) -> Result<(), E::Fault> {
        let attrs = add_param_attrs(out, before, self.attrs.as_slice());
        add_param_kind(out, attrs, &self.kind)
    }
}
/// Emits a parameter without its attributes.
fn add_param_kind<
    E: Emit,
>(out: &mut E, before: Result<(), E::Fault>, kind: &ParamKind) -> Result<(), E::Fault> {
    match kind {
        ParamKind::RefSelf { lifetime, mutable } => {
            let reference = add_reference(out, before, lifetime);
            let word = add_if(out, reference, *mutable, b"mut ");
            add_text(out, word, b"self")
        }
        ParamKind::OwnSelf { mutable, ty } => {
            let word = add_if(out, before, *mutable, b"mut ");
            let word = add_text(out, word, b"self");
            add_self_type(out, word, ty)
        }
        ParamKind::Typed { pat, ty } => {
            let pat = add_pat(out, before, pat);
            let colon = add_text(out, pat, b": ");
            add_type(out, colon, ty)
        }
        ParamKind::Variadic => add_text(out, before, b"..."),
        ParamKind::NamedVariadic { pat } => {
            let pat = add_pat(out, before, pat);
            add_text(out, pat, b": ...")
        }
    }
}
/// Emits a `:` and a type, if there is one: that of a receiver, of a binding, or of a parameter
/// of a closure.
pub fn add_self_type<
    E: Emit,
>(out: &mut E, before: Result<(), E::Fault>, ty: &Option<Ty>) -> Result<(), E::Fault> {
    match ty {
        None => before,
        Some(ty) => {
            let colon = add_text(out, before, b": ");
            add_type(out, colon, ty)
        }
    }
}
/// Emits a return type, if there is one.
fn add_output<
    E: Emit,
>(
    out: &mut E,
    before: Result<(), E::Fault>,
    output: &Option<Ty>,
) -> Result<(), E::Fault> {
    match output {
        None => before,
        Some(ty) => {
            let arrow = add_text(out, before, b" -> ");
            add_type(out, arrow, ty)
        }
    }
}
