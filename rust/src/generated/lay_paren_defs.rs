//! Made by scripts/rust.sh from crates/lay_paren_defs/src/lib.rt, which is proved: change that.
//!
//! Definitions: trees of expressions with each part in parentheses, and trees that lack nothing but
//! parentheses.
//!
//! In parentheses a part may stand anywhere. So a tree with each part in parentheses can be written
//! as the value of a constant exactly if the tree lacks nothing but parentheses. `specs/Enclosed`
//! defines that tree: each part gets a pair, except what is the whole of a statement, and an
//! unlabelled block as the body of an arm or of a closure. `specs/Constant` defines the constant.
//! [`shell_law`] says how the tree is made of its parts.
//!
//! `specs/Traversal` is the one traversal of the parts of expressions: for each kind of node it
//! says which place and slot each part has, and how the node is rebuilt from them, whatever parts
//! are mapped to (an applicative functor). `specs/Enclosed` is an instance of it, and so are the
//! definitions of lay_paren.
mod enclosing;
mod laws;
pub mod loose;
pub use enclosing::{AsIs, Enclose, Enclosed, is_body_enclosed};
