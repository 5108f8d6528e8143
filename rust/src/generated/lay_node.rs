//! Made by scripts/rust.sh from crates/lay_node/src/lib.rt, which is proved: change that.
//!
//! The syntax tree below expressions: its node types, their grammar and their layout.
//!
//! The families of nodes have the same names in the sources, in `specs/` and in `proofs/`: token
//! lists, simple paths, attributes, types, generic parameters and where clauses, patterns,
//! visibilities, fields, the heads of items, use trees. What contains expressions or items is in
//! `lay_code`, which exports the names of this crate again. For each node `specs/nodes/` says when
//! it is well formed, which form it has (in the notation of `lay_form`), and what may not follow it
//! (`Follow`). `specs/reader/` holds the functions that the readers are proved equal to.
//! [`node_law`] and [`reading_law`] say what holds of every node.
pub mod attr;
pub mod boxed;
pub mod fields;
pub mod functions;
pub mod generics;
pub mod heads;
mod laws;
pub mod patterns;
pub mod simple_path;
pub mod token;
pub mod tokens;
pub mod types;
pub mod use_tree;
pub mod vis;
pub use attr::{Attr, MetaInput, MetaPath};
pub use boxed::Boxed;
pub use fields::{Field, Fields, TupleField, Variant};
pub use functions::{FnHead, Param, ParamKind, Safety};
pub use generics::{ConstDefault, GenericParam, Generics, Predicate, Wheres};
pub use heads::{
    Alias,
    Enum,
    ExternCrate,
    ImplHead,
    Site,
    Struct,
    TraitHead,
    TraitRef,
    Union,
    ValueHead,
};
pub use patterns::{FieldPat, Pat, PatPlace, PatValue, SpanEnd};
pub use simple_path::SimplePath;
pub use token::{GivenName, Lifetime, Listed, Literal, Name, Word, are_digits};
pub use tokens::{Group, MacroCall, Tokens};
pub use types::{
    Abi,
    Arg,
    Args,
    Binder,
    Bound,
    Capture,
    ConstArg,
    Constraint,
    FuncParam,
    LifetimeParam,
    Path,
    PathStart,
    PathStyle,
    Ty,
    TypePlace,
};
pub use use_tree::{UseEnd, UseTree};
pub use vis::Vis;
