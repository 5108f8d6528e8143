//! Made by scripts/rust.sh from crates/lay_build_exprs/src/laws.rt, which is proved: change that.
//!
//! The theorem about built expressions. (No code runs.)
