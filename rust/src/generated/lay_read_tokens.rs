//! Made by scripts/rust.sh from crates/lay_read_tokens/src/lib.rt, which is proved: change that.
//!
//! Parsing of what all nodes are made of: names, simple paths, token lists, macro calls and
//! attributes.
//!
//! Each reader is proved equal to a function of the tokens ahead that `lay_node` defines. That
//! function reads exactly what the grammar spells. If nothing is read, [`ReadNone`] says why.
pub mod ahead;
pub mod attributes;
pub mod calls;
pub mod found;
pub mod front;
pub mod names;
pub mod simple_paths;
pub mod stop;
pub mod tokens;
pub use ahead::Ahead;
pub use attributes::{read_attr, read_attrs};
pub use calls::read_call;
pub use found::Found;
pub use stop::ReadNone;
