//! Made by scripts/rust.sh from crates/lay_build/src/lib.rt, which is proved: change that.
//!
//! Builders of files.
//!
//! `specs/Nodes` defines which node each call makes of its arguments, and `specs/Kinds` what a
//! parameter must satisfy. The builders of names, types and expressions are in the crates below and
//! are exported again. A file that [`file`] gives can be written.
mod blocks;
mod docs;
mod files;
mod items;
pub mod kinds;
pub use blocks::{block, stmt_expr, stmt_let};
pub use docs::with_doc;
pub use files::file;
pub use items::{item_const, item_fn, item_mod, item_struct, param};
pub use kinds::{BuiltParam, NamedType};
pub use crate::generated::lay_build_exprs::{
    BuiltField,
    NamedExpr,
    expr_binary,
    expr_call,
    expr_field,
    expr_if,
    expr_int,
    expr_method,
    expr_path,
    expr_str,
    expr_struct,
    field,
};
pub use crate::generated::lay_build_types::{
    BuildError,
    Built,
    BuiltBlock,
    BuiltExpr,
    BuiltItem,
    BuiltName,
    BuiltStmt,
    BuiltType,
    name,
    type_path,
    type_ref,
    type_tuple,
};
pub use crate::generated::lay_code::{File, Op};
pub use crate::generated::lay_text::{List, NoMemory};
