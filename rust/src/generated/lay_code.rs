//! Made by scripts/rust.sh from crates/lay_code/src/lib.rt, which is proved: change that.
//!
//! The syntax tree: expressions, items and files, their grammar and their layout.
//!
//! These nodes contain those of `lay_node`, whose names are exported again. The families have the
//! same names in the sources, in `specs/` and in `proofs/`. For each node `specs/nodes/` says when
//! it is well formed, which form it has (in the notation of `lay_form`), and what may not follow
//! it. `Reading` says which bytes read to which file, and `Out` what the text of a file is.
//! `specs/reader/` holds the functions that the readers are proved equal to. [`node_law`] and
//! [`reading_law`] say what holds of every expression, item and file.
pub mod blocks;
pub mod conditions;
mod drops;
pub mod exprs;
pub mod file;
pub mod item;
mod laws;
pub mod operators;
pub use blocks::{Arm, Block, Branch, Stmt};
pub use conditions::{Condition, Link};
pub use exprs::{ClosureParam, Expr, FieldExpr, Place, Start, Step};
pub use file::File;
pub use item::{Item, ItemKind};
pub use crate::generated::lay_node::{
    Abi,
    Alias,
    Arg,
    Args,
    Attr,
    Binder,
    Bound,
    Boxed,
    Capture,
    ConstArg,
    ConstDefault,
    Constraint,
    Enum,
    ExternCrate,
    Field,
    FieldPat,
    Fields,
    FnHead,
    FuncParam,
    GenericParam,
    Generics,
    GivenName,
    Group,
    ImplHead,
    Lifetime,
    LifetimeParam,
    Listed,
    Literal,
    MacroCall,
    MetaInput,
    MetaPath,
    Name,
    Param,
    ParamKind,
    Pat,
    PatPlace,
    PatValue,
    Path,
    PathStart,
    PathStyle,
    Predicate,
    Safety,
    SimplePath,
    Site,
    SpanEnd,
    Struct,
    Tokens,
    TraitHead,
    TraitRef,
    TupleField,
    Ty,
    TypePlace,
    Union,
    UseEnd,
    UseTree,
    ValueHead,
    Variant,
    Vis,
    Wheres,
    Word,
};
pub use operators::{Op, Prefix};
