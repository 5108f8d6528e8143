//! Made by scripts/rust.sh from crates/lay_ops/src/type_ends.rt, which is proved: change that.
//!
//! Whether `<` after a type would open generic arguments, found along the type's right edge.
use crate::generated::lay_code::{Args, Bound, Path, Ty};
/// What a type ends in.
#[derive(Clone, Copy,)]
enum TypeEnd<'a> {
    /// What takes no generic arguments.
    Shut,
    /// A word that could take generic arguments and has none.
    Bare,
    /// A type.
    In(&'a Ty),
}
/// What a type ends in.
fn type_end(ty: &Ty) -> TypeEnd<'_> {
    match ty {
        Ty::Path { path } => path_end(path),
        Ty::Ptr { inner, .. } | Ty::Ref { inner, .. } => TypeEnd::In(inner.get()),
        Ty::Func { output: Some(output), .. } => TypeEnd::In(output.get()),
        Ty::Bounds { bounds, .. } => {
            match bounds.as_slice().last() {
                Some(bound) => bound_end(bound),
                None => TypeEnd::Shut,
            }
        }
        _ => TypeEnd::Shut,
    }
}
/// What a bound ends in.
fn bound_end(bound: &Bound) -> TypeEnd<'_> {
    match bound {
        Bound::Outlives { .. } | Bound::Captures { .. } => TypeEnd::Shut,
        Bound::Meets { parens, path, .. } => {
            if *parens { TypeEnd::Shut } else { path_end(path) }
        }
    }
}
/// What a path of a type ends in.
fn path_end(path: &Path) -> TypeEnd<'_> {
    match path.segments.as_slice().last() {
        Some((_, args)) => args_end(args),
        None => TypeEnd::Shut,
    }
}
/// What the generic arguments of the last segment of a path of a type end in.
fn args_end(args: &Args) -> TypeEnd<'_> {
    match args {
        Args::None => TypeEnd::Bare,
        Args::Round { output: Some(output), .. } => TypeEnd::In(output.get()),
        _ => TypeEnd::Shut,
    }
}
/// Whether `<` after the type would open generic arguments.
pub fn type_lacks_args(ty: &Ty) -> bool {
    let mut last = ty;
    loop {
        match type_end(last) {
            TypeEnd::Shut => return false,
            TypeEnd::Bare => return true,
            TypeEnd::In(inner) => last = inner,
        }
    }
}
/// Whether `<` after the path, as it is in an expression, would open generic arguments of a type
/// that it ends in.
pub fn path_lacks_args(path: &Path) -> bool {
    match path.segments.as_slice().last() {
        Some((_, args)) => code_args_lack(args),
        None => false,
    }
}
/// Whether `<` after these generic arguments, those of the last segment of a path in an expression,
/// would open generic arguments of a type that they end in.
fn code_args_lack(args: &Args) -> bool {
    match args {
        Args::Round { output: Some(output), .. } => type_lacks_args(output.get()),
        _ => false,
    }
}
