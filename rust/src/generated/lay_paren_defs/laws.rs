//! Made by scripts/rust.sh from crates/lay_paren_defs/src/laws.rt, which is proved: change that.
//!
//! The theorem about trees with each part in parentheses. (No code runs.)
