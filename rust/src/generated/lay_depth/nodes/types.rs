//! Made by scripts/rust.sh from crates/lay_depth/src/nodes/types.rt, which is proved: change that.
//!
//! The depth of types, paths, generic arguments and bounds.
use crate::generated::lay_depth::nodes::levels::deeper;
use crate::generated::lay_node::{
    Arg,
    Args,
    Bound,
    Boxed,
    Constraint,
    FuncParam,
    Path,
    PathStart,
    Ty,
    Word,
};
/// The depth of a type.
pub fn type_depth(ty: &Ty) -> u32 {
    match ty {
        Ty::Call { .. } | Ty::Never | Ty::Infer => 1,
        Ty::Path { path } => deeper(path_depth(path)),
        Ty::Tuple { elements } => deeper(types_depth(elements.as_slice())),
        Ty::Paren { inner } | Ty::Ptr { inner, .. } | Ty::Ref { inner, .. }
        | Ty::Slice { inner } | Ty::Array { inner, .. } => {
            deeper(type_depth(inner.get()))
        }
        Ty::Func { params, output, .. } => {
            deeper(params_depth(params.as_slice()).max(output_depth(output)))
        }
        Ty::Bounds { bounds, .. } => deeper(bounds_depth(bounds.as_slice())),
    }
}
/// The greatest depth of the types.
pub fn types_depth(types: &[Ty]) -> u32 {
    let mut most = 0u32;
    for ty in types {
        most = most.max(type_depth(ty));
    }
    most
}
/// The greatest depth of the parameters of a function type.
fn params_depth(params: &[FuncParam]) -> u32 {
    let mut most = 0u32;
    for param in params {
        most = most.max(type_depth(&param.ty));
    }
    most
}
/// The depth of a return type; 0 if there is none.
fn output_depth(output: &Option<Boxed<Ty>>) -> u32 {
    match output {
        Some(ty) => type_depth(ty.get()),
        None => 0,
    }
}
/// The depth of a path, which doesn't depend on how its generic arguments are spelled.
pub fn path_depth(path: &Path) -> u32 {
    start_depth(&path.start).max(segments_depth(path.segments.as_slice()))
}
/// The depth of the beginning of a path. In `<A as B>::` the trait counts one level more.
fn start_depth(start: &PathStart) -> u32 {
    match start {
        PathStart::Local | PathStart::Global => 0,
        PathStart::Qualified { ty, of } => {
            let within = type_depth(ty.get());
            match of {
                None => within,
                Some(path) => within.max(deeper(path_depth(path.get()))),
            }
        }
    }
}
/// The greatest depth of the generic arguments of the segments.
fn segments_depth(segments: &[(Word, Args)]) -> u32 {
    let mut most = 0u32;
    for (_, args) in segments {
        most = most.max(args_depth(args));
    }
    most
}
/// The depth of the generic arguments of a segment.
fn args_depth(args: &Args) -> u32 {
    match args {
        Args::None => 0,
        Args::Angle { args } => arguments_depth(args.as_slice()),
        Args::Round { inputs, output } => {
            types_depth(inputs.as_slice()).max(output_depth(output))
        }
    }
}
/// The greatest depth of the generic arguments.
pub fn arguments_depth(args: &[Arg]) -> u32 {
    let mut most = 0u32;
    for arg in args {
        most = most.max(arg_depth(arg));
    }
    most
}
/// The depth of a generic argument. A name with its constraint counts one level more than what is
/// in them.
fn arg_depth(arg: &Arg) -> u32 {
    match arg {
        Arg::Region { .. } | Arg::Const { .. } => 0,
        Arg::Plain { ty } => type_depth(ty),
        Arg::Named { args, constraint, .. } => {
            deeper(args_depth(args).max(constraint_depth(constraint)))
        }
    }
}
/// The depth of what a generic argument says of an associated item.
fn constraint_depth(constraint: &Constraint) -> u32 {
    match constraint {
        Constraint::EqualConst { .. } => 0,
        Constraint::Equal { ty } => type_depth(ty),
        Constraint::Limit { bounds } => bounds_depth(bounds.as_slice()),
    }
}
/// The greatest depth of the bounds.
pub fn bounds_depth(bounds: &[Bound]) -> u32 {
    let mut most = 0u32;
    for bound in bounds {
        most = most.max(bound_depth(bound));
    }
    most
}
/// The depth of a bound.
fn bound_depth(bound: &Bound) -> u32 {
    match bound {
        Bound::Outlives { .. } | Bound::Captures { .. } => 0,
        Bound::Meets { path, .. } => path_depth(path),
    }
}
