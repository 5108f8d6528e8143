//! Made by scripts/rust.sh from crates/lay_same_nodes/src/generics.rt, which is proved: change that.
//!
//! Equality of generic parameters and where clauses.
use crate::generated::lay_same_nodes::lists::Same;
use crate::generated::lay_node::{
    ConstDefault,
    GenericParam,
    Generics,
    Predicate,
    Wheres,
};
impl Same for Generics {
    fn same(&self, other: &Generics) -> bool {
        self.params.same(&other.params)
    }
}
impl Same for GenericParam {
    fn same(&self, other: &GenericParam) -> bool {
        match self {
            GenericParam::Region { param } => {
                matches!(
                    other, GenericParam::Region { param: given } if param.same(given)
                )
            }
            GenericParam::Named { attrs, name, bounds, default } => {
                match other {
                    GenericParam::Named {
                        attrs: other_attrs,
                        name: other_name,
                        bounds: other_bounds,
                        default: other_default,
                    } => {
                        attrs.same(other_attrs) && name.same(other_name)
                            && bounds.same(other_bounds) && default.same(other_default)
                    }
                    _ => false,
                }
            }
            GenericParam::Const { attrs, name, ty, default } => {
                match other {
                    GenericParam::Const {
                        attrs: other_attrs,
                        name: other_name,
                        ty: other_ty,
                        default: other_default,
                    } => {
                        attrs.same(other_attrs) && name.same(other_name)
                            && ty.same(other_ty) && default.same(other_default)
                    }
                    _ => false,
                }
            }
        }
    }
}
impl Same for ConstDefault {
    fn same(&self, other: &ConstDefault) -> bool {
        match self {
            ConstDefault::Arg(value) => {
                matches!(other, ConstDefault::Arg(given) if value.same(given))
            }
            ConstDefault::Name(name) => {
                matches!(other, ConstDefault::Name(given) if name.same(given))
            }
        }
    }
}
impl Same for Wheres {
    fn same(&self, other: &Wheres) -> bool {
        self.predicates.same(&other.predicates)
    }
}
impl Same for Predicate {
    fn same(&self, other: &Predicate) -> bool {
        match self {
            Predicate::Region { lifetime, bounds } => {
                match other {
                    Predicate::Region {
                        lifetime: other_lifetime,
                        bounds: other_bounds,
                    } => lifetime.same(other_lifetime) && bounds.same(other_bounds),
                    _ => false,
                }
            }
            Predicate::Bounded { binder, ty, bounds } => {
                match other {
                    Predicate::Bounded {
                        binder: other_binder,
                        ty: other_ty,
                        bounds: other_bounds,
                    } => {
                        binder.same(other_binder) && ty.same(other_ty)
                            && bounds.same(other_bounds)
                    }
                    _ => false,
                }
            }
        }
    }
}
