//! Made by scripts/rust.sh from crates/lay_read_generics/src/lib.rt, which is proved: change that.
//!
//! Parsing of generic parameters and where clauses.
//!
//! No type contains them, so these readers use the readers of types and are no part of their
//! recursion.
mod generics;
mod level;
mod reads;
mod wheres;
pub use crate::generated::lay_read_tokens::ReadNone;
pub use level::{generics_ahead, wheres_ahead};
pub use reads::{read_generics, read_wheres};
