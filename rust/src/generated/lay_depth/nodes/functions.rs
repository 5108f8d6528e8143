//! Made by scripts/rust.sh from crates/lay_depth/src/nodes/functions.rt, which is proved: change that.
//!
//! The depth of the heads of functions.
use crate::generated::lay_depth::nodes::generics::{generics_depth, type_or_none_depth};
use crate::generated::lay_depth::nodes::levels::{Deep, deepest};
use crate::generated::lay_depth::nodes::patterns::pat_depth;
use crate::generated::lay_depth::nodes::types::type_depth;
use crate::generated::lay_node::{FnHead, Param, ParamKind};
impl Deep for Param {
    fn depth(&self) -> u32 {
        match &self.kind {
            ParamKind::RefSelf { .. } | ParamKind::Variadic => 0,
            ParamKind::OwnSelf { ty, .. } => type_or_none_depth(ty),
            ParamKind::Typed { pat, ty } => pat_depth(pat).max(type_depth(ty)),
            ParamKind::NamedVariadic { pat } => pat_depth(pat),
        }
    }
}
/// The depth of the head of a function.
pub fn fn_head_depth(head: &FnHead) -> u32 {
    generics_depth(&head.generics).max(deepest(head.params.as_slice()))
        .max(type_or_none_depth(&head.output))
}
