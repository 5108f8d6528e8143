//! Made by scripts/rust.sh from crates/lay_read_operators/src/lib.rt, which is proved: change that.
//!
//! Parsing of the operators after an expression, by precedence climbing. Each rule is given a
//! reader of expressions of the next deeper level.
//!
//! Each rule is proved equal to a function of the tokens ahead that `lay_code` defines. That
//! function reads exactly what the grammar spells. The rules of operands (lay_read_exprs) and of
//! conditions (lay_read_branches) use the rules here.
//!
//! Most rules are `#[inline(never)]`: 254 levels of nesting have to fit in the stack of a thread,
//! so the frame of each rule is kept small (docs/DECISIONS.md, "Trees").
mod assigns;
mod casts;
pub mod climb;
mod elements;
mod numbers;
pub mod operands;
mod postfix;
mod ranges;
mod rules;
pub use rules::ExprRules;
