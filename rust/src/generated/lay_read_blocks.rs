//! Made by scripts/rust.sh from crates/lay_read_blocks/src/lib.rt, which is proved: change that.
//!
//! Parsing of blocks, statements, arms and closures. Each rule is given readers of expressions,
//! blocks and items of the next deeper level.
//!
//! Each rule is proved equal to a function of the tokens ahead that `lay_code` defines. That
//! function reads exactly what the grammar spells.
//!
//! Most rules are `#[inline(never)]`: 254 levels of nesting have to fit in the stack of a thread,
//! so the frame of each rule is kept small (docs/DECISIONS.md, "Trees").
mod alone;
mod arms;
mod block_heads;
mod blocks;
mod closures;
pub mod front;
mod rules;
mod stmts;
pub use block_heads::BlockHeads;
pub use rules::BlockRules;
