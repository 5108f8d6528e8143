//! Made by scripts/rust.sh from crates/lay_node/src/laws.rt, which is proved: change that.
//!
//! The theorems about nodes. (No code runs.)
