//! Made by scripts/rust.sh from crates/lay_read_blocks/src/front.rt, which is proved: change that.
//!
//! Lookahead: whether an item comes next among statements.
use crate::generated::lay_read_tokens::Ahead;
use crate::generated::lay_read_tokens::front::{
    is_at_keyword,
    is_at_mark,
    is_at_opened,
    pass,
    takes_keyword,
    takes_op,
};
use crate::generated::lay_read_tokens::names::is_at_name;
use crate::generated::lay_token::Delim;
/// Moves past any number of `;`.
pub(crate) fn pass_semicolons(at: &mut Ahead<'_>) {
    while is_at_mark(at, b";") {
        pass(at);
    }
}
/// Whether a keyword comes next that begins an item wherever it stands.
fn is_at_item_word(at: &Ahead<'_>) -> bool {
    is_at_keyword(at, b"pub") || is_at_keyword(at, b"use") || is_at_keyword(at, b"mod")
        || is_at_keyword(at, b"struct") || is_at_keyword(at, b"enum")
        || is_at_keyword(at, b"type") || is_at_keyword(at, b"trait")
        || is_at_keyword(at, b"impl") || is_at_keyword(at, b"fn")
        || is_at_keyword(at, b"static") || is_at_keyword(at, b"extern")
}
/// Whether `const` or `unsafe` comes next, and no `{` after it.
fn begins_const_item(at: &Ahead<'_>) -> bool {
    let mut behind = at.fork();
    pass(&mut behind);
    (is_at_keyword(at, b"const") || is_at_keyword(at, b"unsafe"))
        && !is_at_opened(&behind, Delim::Brace)
}
/// Whether `async` comes next, and then what goes on with a function.
fn begins_async_fn(at: &Ahead<'_>) -> bool {
    let mut behind = at.fork();
    pass(&mut behind);
    is_at_keyword(at, b"async")
        && (is_at_keyword(&behind, b"fn") || is_at_keyword(&behind, b"unsafe")
            || is_at_keyword(&behind, b"extern"))
}
/// Whether an item comes next and no expression. (A macro call counts as an expression.)
pub fn begins_item(at: &Ahead<'_>) -> bool {
    is_at_item_word(at) || begins_const_item(at) || begins_async_fn(at)
        || begins_union(at) || begins_rules(at)
}
/// Whether a union comes next: `union` before a name.
pub fn begins_union(at: &Ahead<'_>) -> bool {
    let mut behind = at.fork();
    takes_keyword(&mut behind, b"union") && is_at_name(&behind)
}
/// Whether a macro definition comes next: `macro_rules` before a `!` and a name.
pub fn begins_rules(at: &Ahead<'_>) -> bool {
    let mut behind = at.fork();
    takes_keyword(&mut behind, b"macro_rules") && takes_op(&mut behind, b"!")
        && is_at_name(&behind)
}
