//! Made by scripts/rust.sh from crates/lay_build_types/src/lib.rt, which is proved: change that.
//!
//! Builders of names and types, and what all builders share.
//!
//! A [`Built`] holds a node that is well formed, whose names and literals are pieces of their
//! kinds, and that is no deeper than a file may be. `specs/Nodes` defines which node each call
//! makes, `specs/Kinds` what a node of each kind must satisfy, and `specs/Answers` what a call
//! gives.
mod built;
mod joins;
mod kinds;
mod laws;
mod lists;
mod names;
mod strings;
mod types;
pub use built::{BuildError, Built, Node, kept};
pub use joins::{both, boxed, keep, one};
pub use kinds::{BuiltBlock, BuiltExpr, BuiltItem, BuiltName, BuiltStmt, BuiltType};
pub use lists::{Turns, nodes, part_or_none, turn_all};
pub use names::{name, path};
pub use strings::string_literal;
pub use types::{type_path, type_ref, type_tuple};
