//! Made by scripts/rust.sh from crates/lay_read_head_rules/src/fields.rt, which is proved: change that.
//!
//! Parsing of fields, and of the variants of enumerations.
use crate::generated::lay_read_head_rules::level::Level;
use crate::generated::lay_read_head_rules::vis::vis_ahead;
use crate::generated::lay_node::{Field, Fields, Tokens, TupleField, TypePlace, Variant};
use crate::generated::lay_read_parts::joins::both;
use crate::generated::lay_read_parts::loops::{Closer, Part, read_elements};
use crate::generated::lay_read_tokens::attributes::attrs_ahead;
use crate::generated::lay_read_tokens::front::{is_at_opened, takes_op, takes_opener};
use crate::generated::lay_read_tokens::names::read_name;
use crate::generated::lay_read_tokens::tokens::read_tokens_before_comma;
use crate::generated::lay_read_tokens::{Ahead, Found, ReadNone};
use crate::generated::lay_read_types::type_ahead;
use crate::generated::lay_token::{Delim, List};
use crate::shims::Global;
/// Fields without names as the elements of a list.
struct TupleFields;
impl Part<TupleField, ()> for TupleFields {}
/// Parses a field without a name.
fn tuple_field(
    level: &Level,
    at: &mut Ahead<'_>,
    _place: (),
) -> Result<Found<TupleField>, ReadNone> {
    let attrs = attrs_ahead(level.alloc, at, false)?;
    let vis = vis_ahead(level.alloc, at)?;
    let ty = type_ahead(level.alloc, at, TypePlace::Bounds, level.depth)?;
    Ok(Found { need: ty.need, node: TupleField { attrs, vis, ty: ty.node } })
}
/// Parses fields without names, after a `(`, and the `)` after them.
fn tuple_field_list(
    alloc: Global,
    at: &mut Ahead<'_>,
    depth: u32,
) -> Result<Found<List<TupleField>>, ReadNone> {
    let level = Level { alloc, depth };
    read_elements::<
        TupleFields,
        Level,
        TupleField,
        (),
        _,
    >(alloc, at, depth, Closer::Group(Delim::Paren), &level, tuple_field, ())
}
/// Parses fields without names in parentheses.
pub(crate) fn tuple_fields_ahead(
    alloc: Global,
    at: &mut Ahead<'_>,
    depth: u32,
) -> Result<Found<List<TupleField>>, ReadNone> {
    if takes_opener(at, Delim::Paren) { tuple_field_list(alloc, at, depth) } else {
        Err(ReadNone::NoReading)
    }
}
/// Fields with names as the elements of a list.
struct NamedFields;
impl Part<Field, ()> for NamedFields {}
/// Parses a field with a name.
fn field(
    level: &Level,
    at: &mut Ahead<'_>,
    _place: (),
) -> Result<Found<Field>, ReadNone> {
    let attrs = attrs_ahead(level.alloc, at, false)?;
    let vis = vis_ahead(level.alloc, at)?;
    let name = read_name(level.alloc, at)?;
    if !takes_op(at, b":") {
        return Err(ReadNone::NoReading);
    }
    let ty = type_ahead(level.alloc, at, TypePlace::Bounds, level.depth)?;
    Ok(Found { need: ty.need, node: Field { attrs, vis, name, ty: ty.node } })
}
/// Parses fields with names, after a `{`, and the `}` after them.
fn named_field_list(
    alloc: Global,
    at: &mut Ahead<'_>,
    depth: u32,
) -> Result<Found<List<Field>>, ReadNone> {
    let level = Level { alloc, depth };
    read_elements::<
        NamedFields,
        Level,
        Field,
        (),
        _,
    >(alloc, at, depth, Closer::Group(Delim::Brace), &level, field, ())
}
/// Parses fields with names in braces.
pub(crate) fn named_fields_ahead(
    alloc: Global,
    at: &mut Ahead<'_>,
    depth: u32,
) -> Result<Found<List<Field>>, ReadNone> {
    if takes_opener(at, Delim::Brace) { named_field_list(alloc, at, depth) } else {
        Err(ReadNone::NoReading)
    }
}
/// Parses the fields of a variant, if it has any.
fn variant_fields(
    alloc: Global,
    at: &mut Ahead<'_>,
    depth: u32,
) -> Result<Found<Fields>, ReadNone> {
    if is_at_opened(at, Delim::Paren) {
        let fields = tuple_fields_ahead(alloc, at, depth)?;
        Ok(Found { need: fields.need, node: Fields::Tuple { fields: fields.node } })
    } else if is_at_opened(at, Delim::Brace) {
        let fields = named_fields_ahead(alloc, at, depth)?;
        Ok(Found { need: fields.need, node: Fields::Named { fields: fields.node } })
    } else { Ok(Found { node: Fields::Unit, need: 0 }) }
}
/// Parses the discriminant of a variant, if it has one.
fn read_discriminant_if(
    alloc: Global,
    at: &mut Ahead<'_>,
) -> Result<Option<Tokens>, ReadNone> {
    if !takes_op(at, b"=") {
        return Ok(None);
    }
    let tokens = read_tokens_before_comma(alloc, at)?;
    if tokens.as_slice().is_empty() {
        return Err(ReadNone::NoReading);
    }
    Ok(Some(tokens))
}
/// Variants as the elements of a list.
struct Variants;
impl Part<Variant, ()> for Variants {}
/// Parses a variant.
fn variant(
    level: &Level,
    at: &mut Ahead<'_>,
    _place: (),
) -> Result<Found<Variant>, ReadNone> {
    let attrs = attrs_ahead(level.alloc, at, false)?;
    let vis = vis_ahead(level.alloc, at)?;
    let name = read_name(level.alloc, at)?;
    let fields = variant_fields(level.alloc, at, level.depth)?;
    let (fields, discriminant) = both(fields, read_discriminant_if(level.alloc, at))?;
    Ok(
        Found {
            need: fields.need,
            node: Variant { attrs, vis, name, fields: fields.node, discriminant },
        },
    )
}
/// Parses variants after the `{`, and the `}`.
fn variant_list(
    alloc: Global,
    at: &mut Ahead<'_>,
    depth: u32,
) -> Result<Found<List<Variant>>, ReadNone> {
    let level = Level { alloc, depth };
    read_elements::<
        Variants,
        Level,
        Variant,
        (),
        _,
    >(alloc, at, depth, Closer::Group(Delim::Brace), &level, variant, ())
}
/// Parses variants in braces.
pub(crate) fn variants_ahead(
    alloc: Global,
    at: &mut Ahead<'_>,
    depth: u32,
) -> Result<Found<List<Variant>>, ReadNone> {
    if takes_opener(at, Delim::Brace) { variant_list(alloc, at, depth) } else {
        Err(ReadNone::NoReading)
    }
}
