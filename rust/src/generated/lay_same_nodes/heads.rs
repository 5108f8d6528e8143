//! Made by scripts/rust.sh from crates/lay_same_nodes/src/heads.rt, which is proved: change that.
//!
//! Equality of fields, functions, and the heads of items.
use crate::generated::lay_same_nodes::lists::Same;
use crate::generated::lay_node::{
    Alias,
    Enum,
    ExternCrate,
    Field,
    Fields,
    FnHead,
    ImplHead,
    Param,
    ParamKind,
    Safety,
    Struct,
    TraitHead,
    TraitRef,
    TupleField,
    Union,
    ValueHead,
    Variant,
};
impl Same for Fields {
    fn same(&self, other: &Fields) -> bool {
        match self {
            Fields::Unit => matches!(other, Fields::Unit),
            Fields::Tuple { fields } => {
                matches!(other, Fields::Tuple { fields: given } if fields.same(given))
            }
            Fields::Named { fields } => {
                matches!(other, Fields::Named { fields: given } if fields.same(given))
            }
        }
    }
}
impl Same for TupleField {
    fn same(&self, other: &TupleField) -> bool {
        self.attrs.same(&other.attrs) && self.vis.same(&other.vis)
            && self.ty.same(&other.ty)
    }
}
impl Same for Field {
    fn same(&self, other: &Field) -> bool {
        self.attrs.same(&other.attrs) && self.vis.same(&other.vis)
            && self.name.same(&other.name) && self.ty.same(&other.ty)
    }
}
impl Same for Variant {
    fn same(&self, other: &Variant) -> bool {
        self.attrs.same(&other.attrs) && self.vis.same(&other.vis)
            && self.name.same(&other.name) && self.fields.same(&other.fields)
            && self.discriminant.same(&other.discriminant)
    }
}
impl Same for Safety {
    fn same(&self, other: &Safety) -> bool {
        match self {
            Safety::Unsafe => matches!(other, Safety::Unsafe),
            Safety::Safe => matches!(other, Safety::Safe),
        }
    }
}
impl Same for FnHead {
    fn same(&self, other: &FnHead) -> bool {
        self.is_const == other.is_const && self.is_async == other.is_async
            && self.safety.same(&other.safety) && self.abi.same(&other.abi)
            && self.name.same(&other.name) && self.generics.same(&other.generics)
            && self.params.same(&other.params) && self.output.same(&other.output)
    }
}
impl Same for Param {
    fn same(&self, other: &Param) -> bool {
        self.attrs.same(&other.attrs) && self.kind.same(&other.kind)
    }
}
impl Same for ParamKind {
    fn same(&self, other: &ParamKind) -> bool {
        match self {
            ParamKind::RefSelf { lifetime, mutable } => {
                match other {
                    ParamKind::RefSelf {
                        lifetime: other_lifetime,
                        mutable: other_mutable,
                    } => lifetime.same(other_lifetime) && *mutable == *other_mutable,
                    _ => false,
                }
            }
            ParamKind::OwnSelf { mutable, ty } => {
                match other {
                    ParamKind::OwnSelf { mutable: other_mutable, ty: other_ty } => {
                        *mutable == *other_mutable && ty.same(other_ty)
                    }
                    _ => false,
                }
            }
            ParamKind::Typed { pat, ty } => {
                match other {
                    ParamKind::Typed { pat: other_pat, ty: other_ty } => {
                        pat.same(other_pat) && ty.same(other_ty)
                    }
                    _ => false,
                }
            }
            ParamKind::Variadic => matches!(other, ParamKind::Variadic),
            ParamKind::NamedVariadic { pat } => {
                matches!(
                    other, ParamKind::NamedVariadic { pat: given } if pat.same(given)
                )
            }
        }
    }
}
impl Same for ExternCrate {
    fn same(&self, other: &ExternCrate) -> bool {
        self.word.same(&other.word) && self.renamed.same(&other.renamed)
    }
}
impl Same for Alias {
    fn same(&self, other: &Alias) -> bool {
        self.name.same(&other.name) && self.generics.same(&other.generics)
            && self.bounds.same(&other.bounds) && self.ty.same(&other.ty)
            && self.wheres.same(&other.wheres)
    }
}
impl Same for Struct {
    fn same(&self, other: &Struct) -> bool {
        self.name.same(&other.name) && self.generics.same(&other.generics)
            && self.fields.same(&other.fields) && self.wheres.same(&other.wheres)
    }
}
impl Same for Union {
    fn same(&self, other: &Union) -> bool {
        self.name.same(&other.name) && self.generics.same(&other.generics)
            && self.wheres.same(&other.wheres) && self.fields.same(&other.fields)
    }
}
impl Same for Enum {
    fn same(&self, other: &Enum) -> bool {
        self.name.same(&other.name) && self.generics.same(&other.generics)
            && self.wheres.same(&other.wheres) && self.variants.same(&other.variants)
    }
}
impl Same for ValueHead {
    fn same(&self, other: &ValueHead) -> bool {
        match self {
            ValueHead::Const { name, ty } => {
                match other {
                    ValueHead::Const { name: other_name, ty: other_ty } => {
                        name.same(other_name) && ty.same(other_ty)
                    }
                    _ => false,
                }
            }
            ValueHead::Static { mutable, name, ty } => {
                match other {
                    ValueHead::Static {
                        mutable: other_mutable,
                        name: other_name,
                        ty: other_ty,
                    } => {
                        *mutable == *other_mutable && name.same(other_name)
                            && ty.same(other_ty)
                    }
                    _ => false,
                }
            }
        }
    }
}
impl Same for TraitHead {
    fn same(&self, other: &TraitHead) -> bool {
        self.is_unsafe == other.is_unsafe && self.name.same(&other.name)
            && self.generics.same(&other.generics) && self.bounds.same(&other.bounds)
    }
}
impl Same for TraitRef {
    fn same(&self, other: &TraitRef) -> bool {
        self.negative == other.negative && self.path.same(&other.path)
    }
}
impl Same for ImplHead {
    fn same(&self, other: &ImplHead) -> bool {
        self.is_unsafe == other.is_unsafe && self.generics.same(&other.generics)
            && self.of.same(&other.of) && self.ty.same(&other.ty)
    }
}
