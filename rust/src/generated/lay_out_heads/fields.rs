//! Made by scripts/rust.sh from crates/lay_out_heads/src/fields.rt, which is proved: change that.
//!
//! The layout of fields, and of the variants of enumerations.
use crate::generated::lay_out_heads::loops::{Part, add_braces, add_parens};
use crate::generated::lay_out_heads::vis::add_vis;
use crate::generated::lay_node::{Field, Fields, Tokens, TupleField, Variant};
use crate::generated::lay_out_pats::add_attrs;
use crate::generated::lay_out_types::add_type;
use crate::generated::lay_out_types::calls::{add_text, add_tokens, add_word};
use crate::generated::lay_stream::Emit;
/// Emits the layout of fields: in parentheses, or in braces with a leading blank or without it.
/// Nothing if there are no fields.
pub fn put_fields<
    E: Emit,
>(out: &mut E, fields: &Fields, lead: bool) -> Result<(), E::Fault> {
    add_fields(out, Ok(()), fields, lead)
}
/// Emits fields.
fn add_fields<
    E: Emit,
>(
    out: &mut E,
    before: Result<(), E::Fault>,
    fields: &Fields,
    lead: bool,
) -> Result<(), E::Fault> {
    match fields {
        Fields::Unit => before,
        Fields::Tuple { fields } => add_parens(out, before, fields.as_slice(), true),
        Fields::Named { fields } => add_braces(out, before, fields.as_slice(), lead),
    }
}
impl Part for TupleField {
    fn add<
        E: Emit,
    >(&self, out: &mut E, before: Result<(), E::Fault>) -> Result<(), E::Fault> {
        let attrs = add_attrs(out, before, self.attrs.as_slice());
        let vis = add_vis(out, attrs, &self.vis);
        add_type(out, vis, &self.ty)
    }
}
impl Part for Field {
    fn add<
        E: Emit,
    >(&self, out: &mut E, before: Result<(), E::Fault>) -> Result<(), E::Fault> {
        let attrs = add_attrs(out, before, self.attrs.as_slice());
        let vis = add_vis(out, attrs, &self.vis);
        let name = add_word(out, vis, self.name.raw, &self.name.text);
        let colon = add_text(out, name, b": ");
        add_type(out, colon, &self.ty)
    }
}
/// Emits the layout of a variant.
pub fn put_variant<E: Emit>(out: &mut E, variant: &Variant) -> Result<(), E::Fault> {
    variant.add(out, Ok(()))
}
impl Part for Variant {
    fn add<
        E: Emit,
    >(&self, out: &mut E, before: Result<(), E::Fault>) -> Result<(), E::Fault> {
        let attrs = add_attrs(out, before, self.attrs.as_slice());
        let vis = add_vis(out, attrs, &self.vis);
        let name = add_word(out, vis, self.name.raw, &self.name.text);
        let fields = add_fields(out, name, &self.fields, true);
        add_discriminant(out, fields, &self.discriminant)
    }
}
/// Emits a `=` and the discriminant of a variant, if it has one.
fn add_discriminant<
    E: Emit,
>(
    out: &mut E,
    before: Result<(), E::Fault>,
    discriminant: &Option<Tokens>,
) -> Result<(), E::Fault> {
    match discriminant {
        None => before,
        Some(tokens) => {
            let equals = add_text(out, before, b" = ");
            add_tokens(out, equals, tokens)
        }
    }
}
