//! Made by scripts/rust.sh from crates/lay_build_types/src/types.rt, which is proved: change that.
//!
//! Builders of types.
use crate::generated::lay_build_types::built::{BuildError, kept};
use crate::generated::lay_build_types::joins::boxed;
use crate::generated::lay_build_types::kinds::{BuiltName, BuiltType};
use crate::generated::lay_build_types::lists::{Turns, nodes, turn_all};
use crate::generated::lay_build_types::names::path;
use crate::generated::lay_code::{Arg, Args, Name, Ty};
use crate::generated::lay_text::List;
use crate::shims::Global;
/// A path as a type; the last name has these generic arguments, if there are any: `a::B<C, D>`.
pub fn type_path(
    alloc: Global,
    first: BuiltName,
    rest: List<BuiltName>,
    args: List<BuiltType>,
) -> Result<BuiltType, BuildError> {
    let (first, _) = first.into_parts();
    let (rest, _) = nodes(alloc, rest)?;
    let (args, need) = nodes(alloc, args)?;
    kept(path_type(alloc, first, rest, args, need))
}
/// A path as a type, whose generic arguments need this depth.
fn path_type(
    alloc: Global,
    first: Name,
    rest: List<Name>,
    args: List<Ty>,
    need: u32,
) -> Result<(Ty, u32), BuildError> {
    let arguments = type_args(alloc, args)?;
    let path = path(alloc, first, rest, arguments)?;
    Ok((Ty::Path { path }, need + 1))
}
/// The generic arguments of these types, or none.
fn type_args(alloc: Global, args: List<Ty>) -> Result<Args, BuildError> {
    if args.as_slice().is_empty() {
        return Ok(Args::None);
    }
    let args = turn_all(alloc, args)?;
    Ok(Args::Angle { args })
}
impl Turns<Arg> for Ty {
    fn turn(self, _alloc: Global) -> Result<Arg, BuildError> {
        Ok(Arg::Plain { ty: self })
    }
}
/// A reference type: `&A`, or `&mut A` if `writable`.
pub fn type_ref(
    alloc: Global,
    writable: bool,
    of: BuiltType,
) -> Result<BuiltType, BuildError> {
    let (inner, need) = of.into_parts();
    kept(reference(alloc, writable, inner, need))
}
/// A reference type of a type that needs this depth.
fn reference(
    alloc: Global,
    mutable: bool,
    inner: Ty,
    need: u32,
) -> Result<(Ty, u32), BuildError> {
    let inner = boxed(alloc, inner)?;
    let ty = Ty::Ref { lifetime: None, mutable, inner };
    Ok((ty, need + 1))
}
/// A tuple type: `(A, B)`.
pub fn type_tuple(
    alloc: Global,
    parts: List<BuiltType>,
) -> Result<BuiltType, BuildError> {
    let (elements, need) = nodes(alloc, parts)?;
    kept(Ok((Ty::Tuple { elements }, need + 1)))
}
