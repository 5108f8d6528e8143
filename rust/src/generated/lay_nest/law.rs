//! Made by scripts/rust.sh from crates/lay_nest/src/law.rt, which is proved: change that.
//!
//! The theorem about balanced delimiters.
