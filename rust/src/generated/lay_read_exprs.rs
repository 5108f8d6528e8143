//! Made by scripts/rust.sh from crates/lay_read_exprs/src/lib.rt, which is proved: change that.
//!
//! Parsing of expressions.
//!
//! An operand is read, and then by precedence climbing the operators after it that its place
//! allows. Each rule is given a reader of expressions of the next deeper level, and a reader of
//! expressions that begin with a block. It is proved equal to a function of the tokens ahead that
//! `lay_code` defines. That function reads exactly what the grammar spells.
//!
//! Most rules are `#[inline(never)]`: 254 levels of nesting have to fit in the stack of a thread,
//! so the frame of each rule is kept small (docs/DECISIONS.md, "Trees").
mod climber;
mod groups;
mod head;
mod jumps;
mod marked;
mod paths;
mod prefixes;
mod structs;
pub use climber::Climber;
