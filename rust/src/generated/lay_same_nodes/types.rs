//! Made by scripts/rust.sh from crates/lay_same_nodes/src/types.rt, which is proved: change that.
//!
//! Equality of types, paths, generic arguments and bounds.
use crate::generated::lay_same_nodes::lists::Same;
use crate::generated::lay_node::{
    Abi,
    Arg,
    Args,
    Binder,
    Bound,
    Boxed,
    Capture,
    ConstArg,
    Constraint,
    FuncParam,
    LifetimeParam,
    Path,
    PathStart,
    Ty,
    Word,
};
impl Same for ConstArg {
    fn same(&self, other: &ConstArg) -> bool {
        match self {
            ConstArg::Literal(literal) => {
                matches!(other, ConstArg::Literal(given) if literal.same(given))
            }
            ConstArg::Negative(literal) => {
                matches!(other, ConstArg::Negative(given) if literal.same(given))
            }
            ConstArg::Braces(tokens) => {
                matches!(other, ConstArg::Braces(given) if tokens.same(given))
            }
        }
    }
}
impl Same for LifetimeParam {
    fn same(&self, other: &LifetimeParam) -> bool {
        self.attrs.same(&other.attrs) && self.lifetime.same(&other.lifetime)
            && self.bounds.same(&other.bounds)
    }
}
impl Same for Binder {
    fn same(&self, other: &Binder) -> bool {
        self.params.same(&other.params)
    }
}
impl Same for Capture {
    fn same(&self, other: &Capture) -> bool {
        match self {
            Capture::Region { lifetime } => {
                matches!(
                    other, Capture::Region { lifetime: given } if lifetime.same(given)
                )
            }
            Capture::Word { word } => {
                matches!(other, Capture::Word { word: given } if word.same(given))
            }
        }
    }
}
impl Same for Abi {
    fn same(&self, other: &Abi) -> bool {
        self.name.same(&other.name)
    }
}
impl Same for Ty {
    fn same(&self, other: &Ty) -> bool {
        match self {
            Ty::Path { path } => matches!(
                other, Ty::Path { path: given } if path.same(given)
            ),
            Ty::Call { call } => matches!(
                other, Ty::Call { call: given } if call.same(given)
            ),
            Ty::Paren { inner } => {
                matches!(
                    other, Ty::Paren { inner: given } if inner.get().same(given.get())
                )
            }
            Ty::Tuple { elements } => {
                match other {
                    Ty::Tuple { elements: given } => {
                        same_types(elements.as_slice(), given.as_slice())
                    }
                    _ => false,
                }
            }
            Ty::Never => matches!(other, Ty::Never),
            Ty::Infer => matches!(other, Ty::Infer),
            Ty::Ptr { mutable, inner } => {
                match other {
                    Ty::Ptr { mutable: other_mutable, inner: other_inner } => {
                        *mutable == *other_mutable && inner.get().same(other_inner.get())
                    }
                    _ => false,
                }
            }
            Ty::Ref { lifetime, mutable, inner } => {
                match other {
                    Ty::Ref {
                        lifetime: other_lifetime,
                        mutable: other_mutable,
                        inner: other_inner,
                    } => {
                        lifetime.same(other_lifetime) && *mutable == *other_mutable
                            && inner.get().same(other_inner.get())
                    }
                    _ => false,
                }
            }
            Ty::Slice { inner } => {
                matches!(
                    other, Ty::Slice { inner: given } if inner.get().same(given.get())
                )
            }
            Ty::Array { inner, length } => {
                match other {
                    Ty::Array { inner: other_inner, length: other_length } => {
                        inner.get().same(other_inner.get()) && length.same(other_length)
                    }
                    _ => false,
                }
            }
            Ty::Func { binder, is_unsafe, abi, params, variadic, output } => {
                match other {
                    Ty::Func {
                        binder: other_binder,
                        is_unsafe: other_is_unsafe,
                        abi: other_abi,
                        params: other_params,
                        variadic: other_variadic,
                        output: other_output,
                    } => {
                        binder.same(other_binder) && *is_unsafe == *other_is_unsafe
                            && abi.same(other_abi)
                            && same_params(params.as_slice(), other_params.as_slice())
                            && *variadic == *other_variadic
                            && same_output(output, other_output)
                    }
                    _ => false,
                }
            }
            Ty::Bounds { dynamic, bounds } => {
                match other {
                    Ty::Bounds { dynamic: other_dynamic, bounds: other_bounds } => {
                        *dynamic == *other_dynamic
                            && same_bounds(bounds.as_slice(), other_bounds.as_slice())
                    }
                    _ => false,
                }
            }
        }
    }
}
impl Same for FuncParam {
    fn same(&self, other: &FuncParam) -> bool {
        self.attrs.same(&other.attrs) && self.name.same(&other.name)
            && self.ty.same(&other.ty)
    }
}
impl Same for Path {
    fn same(&self, other: &Path) -> bool {
        self.start.same(&other.start)
            && same_segments(self.segments.as_slice(), other.segments.as_slice())
    }
}
impl Same for PathStart {
    fn same(&self, other: &PathStart) -> bool {
        match self {
            PathStart::Local => matches!(other, PathStart::Local),
            PathStart::Global => matches!(other, PathStart::Global),
            PathStart::Qualified { ty, of } => {
                match other {
                    PathStart::Qualified { ty: other_ty, of: other_of } => {
                        ty.get().same(other_ty.get()) && same_trait(of, other_of)
                    }
                    _ => false,
                }
            }
        }
    }
}
impl Same for Args {
    fn same(&self, other: &Args) -> bool {
        match self {
            Args::None => matches!(other, Args::None),
            Args::Angle { args } => {
                match other {
                    Args::Angle { args: given } => {
                        same_arguments(args.as_slice(), given.as_slice())
                    }
                    _ => false,
                }
            }
            Args::Round { inputs, output } => {
                match other {
                    Args::Round { inputs: other_inputs, output: other_output } => {
                        same_types(inputs.as_slice(), other_inputs.as_slice())
                            && same_output(output, other_output)
                    }
                    _ => false,
                }
            }
        }
    }
}
impl Same for Arg {
    fn same(&self, other: &Arg) -> bool {
        match self {
            Arg::Region { lifetime } => {
                matches!(other, Arg::Region { lifetime: given } if lifetime.same(given))
            }
            Arg::Plain { ty } => matches!(
                other, Arg::Plain { ty: given } if ty.same(given)
            ),
            Arg::Const { value } => {
                matches!(other, Arg::Const { value: given } if value.same(given))
            }
            Arg::Named { name, args, constraint } => {
                match other {
                    Arg::Named {
                        name: other_name,
                        args: other_args,
                        constraint: other_constraint,
                    } => {
                        name.same(other_name) && args.same(other_args)
                            && constraint.same(other_constraint)
                    }
                    _ => false,
                }
            }
        }
    }
}
impl Same for Constraint {
    fn same(&self, other: &Constraint) -> bool {
        match self {
            Constraint::Equal { ty } => {
                matches!(other, Constraint::Equal { ty: given } if ty.same(given))
            }
            Constraint::EqualConst { value } => {
                matches!(
                    other, Constraint::EqualConst { value: given } if value.same(given)
                )
            }
            Constraint::Limit { bounds } => {
                match other {
                    Constraint::Limit { bounds: given } => {
                        same_bounds(bounds.as_slice(), given.as_slice())
                    }
                    _ => false,
                }
            }
        }
    }
}
impl Same for Bound {
    fn same(&self, other: &Bound) -> bool {
        match self {
            Bound::Outlives { lifetime } => {
                matches!(
                    other, Bound::Outlives { lifetime: given } if lifetime.same(given)
                )
            }
            Bound::Meets { parens, maybe, binder, path } => {
                match other {
                    Bound::Meets {
                        parens: other_parens,
                        maybe: other_maybe,
                        binder: other_binder,
                        path: other_path,
                    } => {
                        *parens == *other_parens && *maybe == *other_maybe
                            && binder.same(other_binder) && path.same(other_path)
                    }
                    _ => false,
                }
            }
            Bound::Captures { captured } => {
                matches!(
                    other, Bound::Captures { captured: given } if captured.same(given)
                )
            }
        }
    }
}
/// Whether two lists of types are equal.
fn same_types(elements: &[Ty], others: &[Ty]) -> bool {
    if elements.len() != others.len() {
        return false;
    }
    for (element, other) in elements.iter().zip(others) {
        if !element.same(other) {
            return false;
        }
    }
    true
}
/// Whether the parameters of two function types are equal.
fn same_params(params: &[FuncParam], others: &[FuncParam]) -> bool {
    if params.len() != others.len() {
        return false;
    }
    for (param, other) in params.iter().zip(others) {
        if !param.same(other) {
            return false;
        }
    }
    true
}
/// Whether two lists of bounds are equal.
fn same_bounds(bounds: &[Bound], others: &[Bound]) -> bool {
    if bounds.len() != others.len() {
        return false;
    }
    for (bound, other) in bounds.iter().zip(others) {
        if !bound.same(other) {
            return false;
        }
    }
    true
}
/// Whether two lists of generic arguments are equal.
fn same_arguments(arguments: &[Arg], others: &[Arg]) -> bool {
    if arguments.len() != others.len() {
        return false;
    }
    for (argument, other) in arguments.iter().zip(others) {
        if !argument.same(other) {
            return false;
        }
    }
    true
}
/// Whether the segments of two paths are equal.
fn same_segments(segments: &[(Word, Args)], others: &[(Word, Args)]) -> bool {
    if segments.len() != others.len() {
        return false;
    }
    for ((word, args), (other_word, other_args)) in segments.iter().zip(others) {
        if !word.same(other_word) || !args.same(other_args) {
            return false;
        }
    }
    true
}
/// Whether two return types are equal.
fn same_output(output: &Option<Boxed<Ty>>, other: &Option<Boxed<Ty>>) -> bool {
    match output {
        None => other.is_none(),
        Some(output) => matches!(other, Some(given) if output.get().same(given.get())),
    }
}
/// Whether the traits in two paths as `<A as B>::` are equal.
fn same_trait(path: &Option<Boxed<Path>>, other: &Option<Boxed<Path>>) -> bool {
    match path {
        None => other.is_none(),
        Some(path) => matches!(other, Some(given) if path.get().same(given.get())),
    }
}
