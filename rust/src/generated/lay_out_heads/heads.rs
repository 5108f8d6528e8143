//! Made by scripts/rust.sh from crates/lay_out_heads/src/heads.rt, which is proved: change that.
//!
//! The layout of the heads of traits, implementations, constants and statics.
use crate::generated::lay_out_heads::calls::add_generics;
use crate::generated::lay_node::{
    Generics,
    ImplHead,
    Name,
    PathStyle,
    TraitHead,
    TraitRef,
    ValueHead,
};
use crate::generated::lay_out_types::calls::{add_if, add_text, add_word};
use crate::generated::lay_out_types::parts::add_given_name;
use crate::generated::lay_out_types::{add_asked, add_path, add_type};
use crate::generated::lay_stream::Emit;
/// Emits the layout of the head of a trait.
pub fn put_trait_head<E: Emit>(out: &mut E, head: &TraitHead) -> Result<(), E::Fault> {
    let word = add_if(out, Ok(()), head.is_unsafe, b"unsafe ");
    let name = add_called(out, word, b"trait ", &head.name, &head.generics);
    add_asked(out, name, head.bounds.as_slice())
}
/// Emits `word`, which ends in a blank, a name, and generic parameters.
pub fn add_called<
    E: Emit,
>(
    out: &mut E,
    before: Result<(), E::Fault>,
    word: &[u8],
    name: &Name,
    generics: &Generics,
) -> Result<(), E::Fault> {
    let word = add_text(out, before, word);
    let name = add_word(out, word, name.raw, &name.text);
    add_generics(out, name, generics)
}
/// Emits the layout of the head of an implementation.
pub fn put_impl_head<E: Emit>(out: &mut E, head: &ImplHead) -> Result<(), E::Fault> {
    let word = add_if(out, Ok(()), head.is_unsafe, b"unsafe ");
    let word = add_text(out, word, b"impl");
    let generics = add_generics(out, word, &head.generics);
    let blank = add_text(out, generics, b" ");
    let of = add_trait_ref(out, blank, &head.of);
    add_type(out, of, &head.ty)
}
/// Emits the trait of an implementation and `for`; nothing if it has none.
fn add_trait_ref<
    E: Emit,
>(
    out: &mut E,
    before: Result<(), E::Fault>,
    of: &Option<TraitRef>,
) -> Result<(), E::Fault> {
    match of {
        None => before,
        Some(of) => {
            let not = add_if(out, before, of.negative, b"!");
            let path = add_path(out, not, &of.path, PathStyle::Kind);
            add_text(out, path, b" for ")
        }
    }
}
/// Emits the layout of the head of a constant or of a static.
pub fn put_value_head<E: Emit>(out: &mut E, head: &ValueHead) -> Result<(), E::Fault> {
    match head {
        ValueHead::Const { name, ty } => {
            let word = add_text(out, Ok(()), b"const ");
            let name = add_given_name(out, word, name);
            add_type(out, name, ty)
        }
        ValueHead::Static { mutable, name, ty } => {
            let word = add_text(out, Ok(()), b"static ");
            let word = add_if(out, word, *mutable, b"mut ");
            let name = add_word(out, word, name.raw, &name.text);
            let colon = add_text(out, name, b": ");
            add_type(out, colon, ty)
        }
    }
}
