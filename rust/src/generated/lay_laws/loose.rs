//! Made by scripts/rust.sh from crates/lay_laws/src/loose.rt, which is proved: change that.
//!
//! Which trees of expressions lack nothing but parentheses.
use crate::generated::lay_depth::expr_depth;
use crate::generated::lay_files::{DEPTH, FileError, enclosed_text_of, read_within};
use crate::generated::lay_token::NoMemory;
use crate::generated::lay_tree::{Expr, same_enclosed};
use crate::shims::Global;
/// Whether the expression lacks nothing but parentheses: it meets every rule but those of places
/// and slots, each name, word and literal is a piece of its kind, and it is no deeper than files
/// may be. So `parenthesize` of `lay_paren` makes of it a tree that may stand at its place, or
/// gives the error that it is too deep with its parentheses.
///
/// A text can only be tested for whether it parses back, and the text of such a tree may parse to
/// another tree. So the tree is laid out with each part in parentheses, as the value of a constant.
/// There any part may stand, and the text parses back exactly if nothing else is wrong. This takes
/// time and memory in proportion to that text. It needs stack for twice the levels of the tree and
/// two more: those that are added are parentheses and the constant.
pub fn is_loose(alloc: Global, expr: &Expr) -> Result<bool, NoMemory> {
    let depth = expr_depth(expr);
    if depth > DEPTH {
        return Ok(false);
    }
    let text = enclosed_text_of(alloc, expr)?;
    match read_within(alloc, text.as_bytes(), 2 * depth + 2) {
        Ok(read) => Ok(same_enclosed(expr, &read)),
        Err(FileError::Refused { .. }) => Ok(false),
        Err(FileError::NoMemory) => Err(NoMemory),
    }
}
