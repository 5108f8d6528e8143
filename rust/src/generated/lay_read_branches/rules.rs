//! Made by scripts/rust.sh from crates/lay_read_branches/src/rules.rt, which is proved: change that.
//!
//! The rules of conditions, branches and expressions with blocks, at one level.
use crate::generated::lay_read_blocks::BlockRules;
/// The rules of conditions, branches and expressions with blocks, over the rules of blocks of the
/// same level.
pub struct BranchRules<P, B, I> {
    pub rules: BlockRules<P, B, I>,
}
