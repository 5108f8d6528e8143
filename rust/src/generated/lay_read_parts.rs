//! Made by scripts/rust.sh from crates/lay_read_parts/src/lib.rt, which is proved: change that.
//!
//! What the readers share: loops over lists and chains, and the parsing of lifetimes, literals,
//! binders, const arguments and ABIs.
//!
//! Nothing here knows types. A loop is given a reader of parts, with the function of the tokens
//! ahead that this reader is proved equal to; the loop is proved equal to the list or the chain of
//! that function.
pub mod joins;
pub mod leads;
pub mod loops;
pub mod parts;
