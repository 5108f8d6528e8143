//! Made by scripts/rust.sh from crates/lay_paren_defs/src/loose.rt, which is proved: change that.
//!
//! Which trees of expressions lack nothing but parentheses.
//!
//! An expression fits where it stands if its place admits its root, and its slot admits what it
//! begins and ends with. A tree is loose if it meets every other rule. `specs/loose/Slots` defines
//! slots, and `specs/loose/Loose` which trees are loose. [`slots_law`] says that parentheses mend
//! each misfit.
mod laws;
