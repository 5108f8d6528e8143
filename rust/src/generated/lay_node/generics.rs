//! Made by scripts/rust.sh from crates/lay_node/src/generics.rt, which is proved: change that.
//!
//! Generic parameters and where clauses.
use crate::generated::lay_node::attr::Attr;
use crate::generated::lay_node::token::{Lifetime, Name};
use crate::generated::lay_node::types::{Binder, Bound, ConstArg, LifetimeParam, Ty};
use crate::generated::lay_token::List;
/// Generic parameters (Rust Reference, "Generic parameters"): `<'a, A: B = C, const D: E = 1>`, or
/// none.
#[derive(Clone, Debug, PartialEq, Eq)]
pub struct Generics {
    pub params: List<GenericParam>,
}
/// A generic parameter.
#[derive(Clone, Debug, PartialEq, Eq)]
#[non_exhaustive]
pub enum GenericParam {
    /// `'a: 'b`
    Region {
        param: LifetimeParam,
    },
    /// `A: B + C = D`
    Named {
        attrs: List<Attr>,
        name: Name,
        bounds: List<Bound>,
        default: Option<Ty>,
    },
    /// `const A: B = 1`
    Const {
        attrs: List<Attr>,
        name: Name,
        ty: Ty,
        default: Option<ConstDefault>,
    },
}
/// The default of a const parameter.
#[derive(Clone, Debug, PartialEq, Eq)]
#[non_exhaustive]
pub enum ConstDefault {
    Arg(ConstArg),
    Name(Name),
}
/// A where clause (Rust Reference, "Where clauses"). Without one there are no predicates.
#[derive(Clone, Debug, PartialEq, Eq)]
pub struct Wheres {
    pub predicates: List<Predicate>,
}
/// A predicate of a where clause.
#[derive(Clone, Debug, PartialEq, Eq)]
#[non_exhaustive]
pub enum Predicate {
    /// `'a: 'b + 'c`
    Region {
        lifetime: Lifetime,
        bounds: List<Lifetime>,
    },
    /// `for<'a> A: B + C`
    Bounded {
        binder: Option<Binder>,
        ty: Ty,
        bounds: List<Bound>,
    },
}
