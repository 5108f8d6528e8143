//! Made by scripts/rust.sh from crates/lay_code/src/conditions.rt, which is proved: change that.
//!
//! Conditions, which may hold `let` links joined by `&&`.
use crate::generated::lay_code::drops::{discard_boxed, discard_links};
use crate::generated::lay_code::exprs::Expr;
use crate::generated::lay_node::{Boxed, Pat};
use crate::generated::lay_token::List;
/// The condition of an `if` or a `while` (Rust Reference, "`if` and `if let` expressions"): one
/// link, or at least two links joined by `&&`, at least one of which is a `let`. Without a `let`,
/// expressions joined by `&&` are one link: a `Chain`.
#[derive(Clone, Debug, PartialEq, Eq)]
pub struct Condition {
    pub links: List<Link>,
}
impl Condition {
    /// Takes the links out of the condition.
    pub fn into_links(self) -> List<Link> {
        let Condition { links } = self;
        links
    }
}
/// A link of a condition.
#[derive(Clone, Debug, PartialEq, Eq)]
#[non_exhaustive]
pub enum Link {
    /// `a`
    Expr {
        expr: Boxed<Expr>,
    },
    /// `let a = b`
    Let {
        pat: Pat,
        value: Boxed<Expr>,
    },
}
