//! Made by scripts/rust.sh from crates/lay_code/src/laws.rt, which is proved: change that.
//!
//! The theorems about expressions, items and files. (No code runs.)
