//! Made by scripts/rust.sh from crates/lay_out_exprs/src/lib.rt, which is proved: change that.
//!
//! The layout of the parts of expressions that hold no expression.
//!
//! lay_out_code lays out expressions with them. A function named `add_..` is given the result of
//! the calls before it, as in `lay_out_types`.
//!
//! A text that begins with a `.` gets a leading blank if it would directly follow the `.` of a
//! number, as in `1. .a`, or a `..`. That text may be deep inside an expression. So a function is
//! told whether the text before its part ends in a `.`, and the module `points` decides which
//! expressions end in one.
pub mod blocks;
pub mod bodies;
mod closures;
pub mod flags;
mod generics;
pub mod operators;
pub mod points;
pub mod steps;
pub use closures::add_closure_head;
pub use generics::add_generics;
