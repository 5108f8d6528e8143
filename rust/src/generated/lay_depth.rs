//! Made by scripts/rust.sh from crates/lay_depth/src/lib.rt, which is proved: change that.
//!
//! The nesting depth of expressions, blocks, items and files.
//!
//! The depth of a file is the least depth limit at which some tokens spell it, and so at which its
//! text parses back; the depth of an expression is the same for the expression alone.
//! [`file_depth`] and [`expr_depth`] count it in one walk over the tree. The walk takes linear
//! time, needs stack in proportion to the depth, and allocates nothing.
mod blocks;
mod conditions;
mod exprs;
mod files;
mod items;
pub mod nodes;
pub use exprs::expr_depth;
pub use files::file_depth;
