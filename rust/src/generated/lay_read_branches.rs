//! Made by scripts/rust.sh from crates/lay_read_branches/src/lib.rt, which is proved: change that.
//!
//! Parsing of conditions, branches, and expressions that begin with a block or with a word before
//! one. Each rule is given readers of expressions, blocks and items of the next deeper level, and
//! the rules of blocks of its own level (lay_read_blocks).
//!
//! Each rule is proved equal to a function of the tokens ahead that `lay_code` defines. That
//! function reads exactly what the grammar spells.
//!
//! Most rules are `#[inline(never)]`: 254 levels of nesting have to fit in the stack of a thread,
//! so the frame of each rule is kept small (docs/DECISIONS.md, "Trees").
mod branches;
mod conditions;
mod heads;
mod rules;
pub use rules::BranchRules;
