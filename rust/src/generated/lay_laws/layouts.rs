//! Made by scripts/rust.sh from crates/lay_laws/src/layouts.rt, which is proved: change that.
//!
//! The theorem about the layout of every file that can be written. (No code runs.)
