//! Made by scripts/rust.sh from crates/lay_build_exprs/src/kinds.rt, which is proved: change that.
//!
//! Names with the expression after their `:`.
use crate::generated::lay_build_types::{Built, Node};
use crate::generated::lay_code::{Expr, Name};
/// A name and the expression after its `:`, as in a struct literal.
#[derive(Clone, Debug, PartialEq, Eq)]
pub struct NamedExpr {
    pub name: Name,
    pub value: Expr,
}
/// A built field of a struct literal.
pub type BuiltField = Built<NamedExpr>;
impl Node for NamedExpr {}
