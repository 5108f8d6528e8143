//! Made by scripts/rust.sh from crates/lay_ops/src/lib.rt, which is proved: change that.
//!
//! Operators and precedence, and the contexts of expressions.
//!
//! The crate decides which operator comes next, how tightly it binds, whether an operand comes
//! next, and where an expression may stand. Each function is proved equal to a definition of
//! `lay_code`, and none allocates. The functions here take a plain cursor; [`ahead`] has the same
//! ones for the readers. What an expression ends in is found along its right edge by a loop, so a
//! deep expression needs no deep stack.
pub mod ahead;
mod bodies;
mod edges;
mod expr_ends;
mod numbers;
pub mod operands;
pub mod operators;
pub mod places;
mod roots;
mod structs;
mod type_ends;
pub use bodies::{ends, is_call, is_lone_body, sheds};
pub use edges::{begins_dotted, may_wear_braces};
pub use numbers::is_number;
pub use operands::begins_operand;
pub use operators::{binary, prefix};
pub use places::{may, stands};
pub use roots::{first_level, is_block_like, is_free, level};
