//! Made by scripts/rust.sh from crates/lay_code/src/blocks.rt, which is proved: change that.
//!
//! Blocks, statements, and the arms of a match.
use crate::generated::lay_code::conditions::Condition;
use crate::generated::lay_code::drops::{
    discard_boxed,
    discard_boxed_item,
    discard_operand,
    discard_otherwise,
    discard_stmts,
};
use crate::generated::lay_code::exprs::Expr;
use crate::generated::lay_code::item::Item;
use crate::generated::lay_node::{Attr, Boxed, Pat, Ty};
use crate::generated::lay_token::List;
/// A block, with its inner attributes (Rust Reference, "Block expressions").
#[derive(Clone, Debug, PartialEq, Eq)]
pub struct Block {
    pub attrs: List<Attr>,
    pub stmts: List<Stmt>,
}
impl Block {
    /// Takes the statements out of the block.
    pub fn into_stmts(self) -> List<Stmt> {
        let Block { attrs: _, stmts } = self;
        stmts
    }
}
/// A statement (Rust Reference, "Statements").
#[derive(Clone, Debug, PartialEq, Eq)]
#[non_exhaustive]
pub enum Stmt {
    /// `let a: B = c else { d };`, with an `else` only after a value
    Let {
        attrs: List<Attr>,
        pat: Pat,
        ty: Option<Ty>,
        value: Option<Boxed<Expr>>,
        otherwise: Option<Block>,
    },
    /// `fn a() {}`
    Item {
        item: Boxed<Item>,
    },
    /// `a;` or, without its `;`, `a`
    Expr {
        attrs: List<Attr>,
        expr: Boxed<Expr>,
        ended: bool,
    },
}
impl Stmt {
    /// Takes the expression out of the statement, if it is one.
    pub fn into_expr(self) -> Option<Boxed<Expr>> {
        match self {
            Stmt::Expr { attrs: _, expr, ended: _ } => Some(expr),
            _ => None,
        }
    }
}
/// One `if` of a chain of them: a condition and its block (Rust Reference, "`if` and `if let`
/// expressions").
#[derive(Clone, Debug, PartialEq, Eq)]
pub struct Branch {
    pub condition: Condition,
    pub body: Block,
}
impl Branch {
    /// Takes the condition and the block out of the branch.
    pub fn into_parts(self) -> (Condition, Block) {
        let Branch { condition, body } = self;
        (condition, body)
    }
}
/// An arm of a match (Rust Reference, "Match expressions").
#[derive(Clone, Debug, PartialEq, Eq)]
pub struct Arm {
    pub attrs: List<Attr>,
    pub pat: Pat,
    pub guard: Option<Boxed<Expr>>,
    pub body: Boxed<Expr>,
}
