//! Made by scripts/rust.sh from crates/lay_map/src/spelling.rt, which is proved: change that.
//!
//! The units of a spelling: what the map from output to source pairs.
//!
//! A form may be spelled in several ways, and what one of them has and another hasn't is in no
//! unit: the last comma of a list, a `;` that is dropped, braces round the body of an arm or of a
//! closure that aren't in the tree. Each other token is a unit, and documentation is one, however
//! it is spelled. [`units_law`] says what holds of them.
