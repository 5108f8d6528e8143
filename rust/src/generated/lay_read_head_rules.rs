//! Made by scripts/rust.sh from crates/lay_read_head_rules/src/lib.rt, which is proved: change that.
//!
//! Parsing of visibilities, fields, use trees, and the heads of items.
//!
//! Each reader is proved equal to a function of the tokens ahead that `lay_node` defines. That
//! function reads exactly what the grammar spells. Types, patterns and everything else that can be
//! nested come from the crates below, so each reader here gets the depth limit of what its node
//! contains.
pub mod fields;
pub mod functions;
pub mod heads;
pub mod level;
pub mod uses;
pub mod vis;
