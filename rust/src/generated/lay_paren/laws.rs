//! Made by scripts/rust.sh from crates/lay_paren/src/laws.rt, which is proved: change that.
//!
//! The theorem about `parenthesize`. (No code runs.)
