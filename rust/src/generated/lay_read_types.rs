//! Made by scripts/rust.sh from crates/lay_read_types/src/lib.rt, which is proved: change that.
//!
//! Parsing of types, paths, generic arguments and bounds.
//!
//! Each reader is proved equal to a function of the tokens ahead that `lay_node` defines. That
//! function reads exactly what the grammar spells.
//!
//! Rules that hold large values and aren't on the recursive way from a type to a type within it are
//! `#[inline(never)]`: 254 levels of nesting have to fit in the stack of a thread, so the frames on
//! that way are kept small (docs/DECISIONS.md, "Trees").
mod arguments;
mod bounds;
mod knot;
mod passed;
mod paths;
mod reads;
pub mod rules;
pub mod types;
pub use knot::{args_ahead, bounds_ahead, path_ahead, type_ahead};
pub use crate::generated::lay_read_tokens::{ReadNone, read_attr, read_attrs, read_call};
pub use reads::{read_args, read_bounds, read_path, read_type};
