//! Made by scripts/rust.sh from crates/lay_map/src/law.rt, which is proved: change that.
//!
//! The theorems about the map. (No code runs.)
