//! Made by scripts/rust.sh from crates/lay_read_begun/src/lib.rt, which is proved: change that.
//!
//! Parsing of items up to their bodies, and items put together with their bodies.
//!
//! Reading an item up to its body never reads another item, block or expression. So nothing here is
//! part of the recursion that reads code (lay_read_code). Each reader is proved equal to a function
//! of the tokens ahead. With the body added, the result is the item that `lay_code` defines.
pub mod begun;
pub mod bodies;
mod leads;
