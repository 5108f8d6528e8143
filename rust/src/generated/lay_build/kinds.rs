//! Made by scripts/rust.sh from crates/lay_build/src/kinds.rt, which is proved: change that.
//!
//! Names with the type after their `:`.
use crate::generated::lay_build_types::{Built, Node};
use crate::generated::lay_code::{Name, Ty};
/// A name and the type after its `:`, as in a struct or before the body of a function.
#[derive(Clone, Debug, PartialEq, Eq)]
pub struct NamedType {
    pub name: Name,
    pub ty: Ty,
}
/// A built parameter of a function, or a built field of a struct.
pub type BuiltParam = Built<NamedType>;
impl Node for NamedType {}
