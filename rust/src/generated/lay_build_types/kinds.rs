//! Made by scripts/rust.sh from crates/lay_build_types/src/kinds.rt, which is proved: change that.
//!
//! The kinds of nodes that can be built.
use crate::generated::lay_build_types::built::{Built, Node};
use crate::generated::lay_code::{Block, Expr, Item, Name, Stmt, Ty};
/// A built name.
pub type BuiltName = Built<Name>;
/// A built type.
pub type BuiltType = Built<Ty>;
/// A built expression.
pub type BuiltExpr = Built<Expr>;
/// A built statement.
pub type BuiltStmt = Built<Stmt>;
/// A built block.
pub type BuiltBlock = Built<Block>;
/// A built item.
pub type BuiltItem = Built<Item>;
impl Node for Name {}
impl Node for Ty {}
impl Node for Expr {}
impl Node for Stmt {}
impl Node for Block {}
impl Node for Item {}
