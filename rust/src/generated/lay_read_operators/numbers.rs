//! Made by scripts/rust.sh from crates/lay_read_operators/src/numbers.rt, which is proved: change that.
//!
//! Lookahead: tuple indices.
use crate::generated::lay_node::are_digits;
use crate::generated::lay_read_tokens::Ahead;
use crate::generated::lay_read_tokens::front::takes_op;
use crate::generated::lay_token::Kind;
/// Whether a tuple index comes next.
pub fn is_at_tuple_index(at: &Ahead<'_>) -> bool {
    match at.front() {
        Some(token) => {
            matches!(token.kind, Kind::Int) && is_index(token.text.as_bytes())
        }
        None => false,
    }
}
/// Whether a `.` and then a tuple index come next.
pub fn begins_tuple_index(at: &Ahead<'_>) -> bool {
    let mut behind = at.fork();
    takes_op(&mut behind, b".") && is_at_tuple_index(&behind)
}
/// Whether the text is digits and nothing more.
fn is_index(text: &[u8]) -> bool {
    match text {
        [] => false,
        _ => are_digits(text),
    }
}
