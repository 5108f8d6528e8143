//! Made by scripts/rust.sh from crates/lay_build_types/src/laws.rt, which is proved: change that.
//!
//! The theorem about built string literals. (No code runs.)
