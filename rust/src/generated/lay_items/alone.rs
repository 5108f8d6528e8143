//! Made by scripts/rust.sh from crates/lay_items/src/alone.rt, which is proved: change that.
//!
//! Theorems about layouts line by line: what ends in a hard break outside all groups is laid out by
//! itself. (No code runs.)
