//! Made by scripts/rust.sh from crates/lay_depth/src/nodes/heads.rt, which is proved: change that.
//!
//! The depth of fields and of the heads of items.
use crate::generated::lay_depth::nodes::generics::{
    generics_depth,
    type_or_none_depth,
    wheres_depth,
};
use crate::generated::lay_depth::nodes::levels::{Deep, deepest};
use crate::generated::lay_depth::nodes::types::{bounds_depth, path_depth, type_depth};
use crate::generated::lay_node::{
    Alias,
    Enum,
    Field,
    Fields,
    ImplHead,
    Struct,
    TraitHead,
    TupleField,
    Union,
    ValueHead,
    Variant,
};
impl Deep for TupleField {
    fn depth(&self) -> u32 {
        type_depth(&self.ty)
    }
}
impl Deep for Field {
    fn depth(&self) -> u32 {
        type_depth(&self.ty)
    }
}
/// The depth of fields.
fn fields_depth(fields: &Fields) -> u32 {
    match fields {
        Fields::Unit => 0,
        Fields::Tuple { fields } => deepest(fields.as_slice()),
        Fields::Named { fields } => deepest(fields.as_slice()),
    }
}
impl Deep for Variant {
    fn depth(&self) -> u32 {
        fields_depth(&self.fields)
    }
}
/// The depth of a type alias.
pub fn alias_depth(alias: &Alias) -> u32 {
    generics_depth(&alias.generics).max(bounds_depth(alias.bounds.as_slice()))
        .max(type_or_none_depth(&alias.ty))
        .max(wheres_depth(&alias.wheres))
}
/// The depth of a struct.
pub fn struct_depth(item: &Struct) -> u32 {
    generics_depth(&item.generics).max(fields_depth(&item.fields))
        .max(wheres_depth(&item.wheres))
}
/// The depth of a union.
pub fn union_depth(item: &Union) -> u32 {
    generics_depth(&item.generics).max(wheres_depth(&item.wheres))
        .max(deepest(item.fields.as_slice()))
}
/// The depth of an enumeration.
pub fn enum_depth(item: &Enum) -> u32 {
    generics_depth(&item.generics).max(wheres_depth(&item.wheres))
        .max(deepest(item.variants.as_slice()))
}
/// The depth of a constant or a static without its value.
pub fn value_head_depth(head: &ValueHead) -> u32 {
    match head {
        ValueHead::Const { ty, .. } | ValueHead::Static { ty, .. } => type_depth(ty),
    }
}
/// The depth of the head of a trait.
pub fn trait_head_depth(head: &TraitHead) -> u32 {
    generics_depth(&head.generics).max(bounds_depth(head.bounds.as_slice()))
}
/// The depth of the head of an implementation.
pub fn impl_head_depth(head: &ImplHead) -> u32 {
    let of = match &head.of {
        Some(of) => path_depth(&of.path),
        None => 0,
    };
    generics_depth(&head.generics).max(of).max(type_depth(&head.ty))
}
