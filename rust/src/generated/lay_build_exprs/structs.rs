//! Made by scripts/rust.sh from crates/lay_build_exprs/src/structs.rt, which is proved: change that.
//!
//! Builders of struct literals and their fields.
use crate::generated::lay_build_exprs::kinds::{BuiltField, NamedExpr};
use crate::generated::lay_build_types::{
    BuildError,
    BuiltExpr,
    BuiltName,
    Turns,
    boxed,
    kept,
    nodes,
    path,
    turn_all,
};
use crate::generated::lay_code::{Args, Expr, FieldExpr, Name};
use crate::generated::lay_text::List;
use crate::shims::Global;
/// A field of a struct literal: `a: b`.
pub fn field(name: BuiltName, value: BuiltExpr) -> Result<BuiltField, BuildError> {
    let (name, _) = name.into_parts();
    let (value, need) = value.into_parts();
    kept(Ok((NamedExpr { name, value }, need + 1)))
}
/// A struct literal, whose path is these names: `a::B { c: d, e: f }`.
pub fn expr_struct(
    alloc: Global,
    first: BuiltName,
    rest: List<BuiltName>,
    fields: List<BuiltField>,
) -> Result<BuiltExpr, BuildError> {
    let (first, _) = first.into_parts();
    let (rest, _) = nodes(alloc, rest)?;
    let (fields, need) = nodes(alloc, fields)?;
    kept(struct_of(alloc, first, rest, fields, need))
}
/// A struct literal, whose deepest field needs this depth.
fn struct_of(
    alloc: Global,
    first: Name,
    rest: List<Name>,
    fields: List<NamedExpr>,
    need: u32,
) -> Result<(Expr, u32), BuildError> {
    let fields = turn_all(alloc, fields)?;
    let path = path(alloc, first, rest, Args::None)?;
    let expr = Expr::Struct { path, fields, base: None };
    Ok((expr, need.max(1)))
}
impl Turns<FieldExpr> for NamedExpr {
    fn turn(self, alloc: Global) -> Result<FieldExpr, BuildError> {
        let NamedExpr { name, value } = self;
        let value = boxed(alloc, value)?;
        Ok(FieldExpr::Named { attrs: List::new(alloc), name, value })
    }
}
