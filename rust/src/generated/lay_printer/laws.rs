//! Made by scripts/rust.sh from crates/lay_printer/src/laws.rt, which is proved: change that.
//!
//! The theorems about a printer at every moment. (No code runs.)
