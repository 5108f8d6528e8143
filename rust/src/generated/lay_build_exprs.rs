//! Made by scripts/rust.sh from crates/lay_build_exprs/src/lib.rt, which is proved: change that.
//!
//! Builders of expressions.
//!
//! `specs/Nodes` defines which node each call makes of its arguments, and `specs/Kinds` what a
//! field of a struct literal must satisfy. Operands and conditions are put in parentheses where
//! they need them.
mod branches;
mod keeping;
pub mod kinds;
mod laws;
mod leaves;
mod operands;
mod operators;
mod steps;
mod structs;
pub use branches::expr_if;
pub use kinds::{BuiltField, NamedExpr};
pub use leaves::{expr_int, expr_path, expr_str};
pub use operators::expr_binary;
pub use steps::{expr_call, expr_field, expr_method};
pub use structs::{expr_struct, field};
