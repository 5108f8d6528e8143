//! Made by scripts/rust.sh from crates/lay_paren_defs/src/loose/laws.rt, which is proved: change that.
//!
//! The theorem about places and slots. (No code runs.)
