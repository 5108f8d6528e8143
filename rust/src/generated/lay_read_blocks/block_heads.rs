//! Made by scripts/rust.sh from crates/lay_read_blocks/src/block_heads.rt, which is proved: change that.
//!
//! Expressions that contain blocks, and closures: the trait by which the rules of expressions call
//! their reader.
use crate::generated::lay_code::{Boxed, Expr};
use crate::generated::lay_ops::operands::ExprLead;
use crate::generated::lay_read_tokens::{Ahead, Found, ReadNone};
/// A reader of closures, and of expressions that begin with a label, with a block, or with a word
/// before one.
pub trait BlockHeads {
    /// Parses such an expression by its first token, unless it is nested too deep.
    fn block_head(
        &self,
        at: &mut Ahead<'_>,
        no_struct: bool,
        lead: ExprLead,
    ) -> Result<Found<Boxed<Expr>>, ReadNone>;
}
