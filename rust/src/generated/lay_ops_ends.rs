//! Made by scripts/rust.sh from crates/lay_ops_ends/src/lib.rt, which is proved: change that.
//!
//! Whether an `else` may follow an expression, and the braces around the bodies of arms and
//! closures that aren't in the tree.
mod bodies;
mod brace_ends;
pub use bodies::{shed, undressed};
pub use brace_ends::may_precede_else;
