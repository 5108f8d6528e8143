//! Made by scripts/rust.sh from crates/lay_read_pats/src/lib.rt, which is proved: change that.
//!
//! Parsing of patterns.
//!
//! Each reader is proved equal to a function of the tokens ahead that `lay_node` defines. That
//! function reads exactly what the grammar spells.
mod binds;
pub mod facts;
mod groups;
mod kinds;
mod pats;
mod reads;
mod rules;
pub mod structs;
mod values;
pub use crate::generated::lay_read_types::{ReadNone, read_attr, read_attrs, read_call};
pub use pats::pat_ahead;
pub use reads::{read_pat, read_pat_no_alt};
