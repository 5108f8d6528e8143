//! Made by scripts/rust.sh from crates/lay_paren/src/lib.rt, which is proved: change that.
//!
//! Puts the parentheses that a syntax tree lacks.
//!
//! A tree of expressions can be built without regard to precedence and context. `specs/Least`
//! defines where parentheses are put: round each part that doesn't fit its place and slot. Which
//! place and slot each part has is defined by `specs/Traversal` of lay_paren_defs.
//! [`parenthesize_law`] says that the result may stand at its place, that it is the same tree but
//! for parentheses, and that none of the added pairs can be left out.
mod blocks;
mod calls;
mod conditions;
mod exprs;
mod items;
mod laws;
mod leads;
pub mod loose_laws;
mod places;
mod slots;
pub use calls::{ParenError, parenthesize};
