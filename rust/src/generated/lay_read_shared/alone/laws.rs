//! Made by scripts/rust.sh from crates/lay_read_shared/src/alone/laws.rt, which is proved: change that.
//!
//! The theorems about blocks, statements and arms that stand alone. (No code runs.)
