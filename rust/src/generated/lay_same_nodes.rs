//! Made by scripts/rust.sh from crates/lay_same_nodes/src/lib.rt, which is proved: change that.
//!
//! Equality of nodes that hold no expression.
//!
//! [`Same`] compares two nodes of one type, and lists, boxes and options of them. The trees are
//! compared: names, words, literals as they are spelled, and their order. A comparison needs stack
//! in proportion to the depth of the trees.
mod generics;
mod heads;
pub mod lists;
mod patterns;
mod tokens;
mod types;
mod uses;
pub use lists::Same;
