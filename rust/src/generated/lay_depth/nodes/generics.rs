//! Made by scripts/rust.sh from crates/lay_depth/src/nodes/generics.rt, which is proved: change that.
//!
//! The depth of generic parameters and where clauses.
use crate::generated::lay_depth::nodes::levels::{Deep, deepest};
use crate::generated::lay_depth::nodes::types::{bounds_depth, type_depth};
use crate::generated::lay_node::{GenericParam, Generics, Predicate, Ty, Wheres};
/// The depth of an optional type; 0 if there is none.
pub fn type_or_none_depth(ty: &Option<Ty>) -> u32 {
    match ty {
        Some(ty) => type_depth(ty),
        None => 0,
    }
}
impl Deep for GenericParam {
    fn depth(&self) -> u32 {
        match self {
            GenericParam::Region { .. } => 0,
            GenericParam::Named { bounds, default, .. } => {
                bounds_depth(bounds.as_slice()).max(type_or_none_depth(default))
            }
            GenericParam::Const { ty, .. } => type_depth(ty),
        }
    }
}
/// The depth of generic parameters.
pub fn generics_depth(generics: &Generics) -> u32 {
    deepest(generics.params.as_slice())
}
impl Deep for Predicate {
    fn depth(&self) -> u32 {
        match self {
            Predicate::Region { .. } => 0,
            Predicate::Bounded { ty, bounds, .. } => {
                type_depth(ty).max(bounds_depth(bounds.as_slice()))
            }
        }
    }
}
/// The depth of a where clause.
pub fn wheres_depth(wheres: &Wheres) -> u32 {
    deepest(wheres.predicates.as_slice())
}
