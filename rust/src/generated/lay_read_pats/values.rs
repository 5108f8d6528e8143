//! Made by scripts/rust.sh from crates/lay_read_pats/src/values.rt, which is proved: change that.
//!
//! Parsing of literals in patterns, and of range patterns.
use crate::generated::lay_node::{Pat, PatValue, PathStyle, SpanEnd};
use crate::generated::lay_read_parts::joins::both;
use crate::generated::lay_read_parts::leads::{
    Lead,
    is_at_literal,
    is_at_number,
    lead_at,
};
use crate::generated::lay_read_parts::parts::read_literal;
use crate::generated::lay_read_tokens::found::greater;
use crate::generated::lay_read_tokens::front::{is_at_mark, pass, pass_two, takes_mark};
use crate::generated::lay_read_tokens::stop::boxed;
use crate::generated::lay_read_tokens::{Ahead, Found, ReadNone};
use crate::generated::lay_read_types::path_ahead;
use crate::shims::Global;
/// Whether the `..` or `..=` of a range pattern comes next.
pub fn begins_dots(at: &Ahead<'_>) -> bool {
    at.op_is(b"..") || at.op_is(b"..=")
}
/// Whether a literal or a negative number comes next.
pub fn begins_value(at: &Ahead<'_>) -> bool {
    is_at_literal(at) || is_at_mark(at, b"-")
}
/// Whether the end of a range pattern comes next.
fn begins_span_end(at: &Ahead<'_>) -> bool {
    begins_value(at) || matches!(lead_at(at), Some(Lead::Path))
}
/// Moves past three tokens, or as many as there are.
fn pass_three(at: &mut Ahead<'_>) {
    pass(at);
    pass_two(at);
}
/// Parses a literal, or a negative number.
fn read_value(alloc: Global, at: &mut Ahead<'_>) -> Result<PatValue, ReadNone> {
    if takes_mark(at, b"-") {
        let passes = is_at_number(at);
        let literal = read_literal(alloc, at, passes)?;
        Ok(PatValue { negative: true, literal })
    } else {
        let passes = is_at_literal(at);
        let literal = read_literal(alloc, at, passes)?;
        Ok(PatValue { negative: false, literal })
    }
}
/// Parses an end of a range pattern.
fn one_end(
    alloc: Global,
    at: &mut Ahead<'_>,
    depth: u32,
) -> Result<Found<SpanEnd>, ReadNone> {
    if begins_value(at) {
        let value = read_value(alloc, at)?;
        Ok(Found { node: SpanEnd::Value(value), need: 0 })
    } else {
        let path = path_ahead(alloc, at, PathStyle::Code, depth)?;
        Ok(Found { node: SpanEnd::Path(path.node), need: path.need })
    }
}
/// Parses the end of a range pattern, after its `..` or `..=`.
fn closed_span(
    alloc: Global,
    at: &mut Ahead<'_>,
    depth: u32,
    start: Found<Option<SpanEnd>>,
    inclusive: bool,
) -> Result<Found<Pat>, ReadNone> {
    let (start, end) = both(start, one_end(alloc, at, depth))?;
    let need = greater(start.need, end.need) + 1;
    let (end, start) = both(Some(end.node), boxed(alloc, start.node))?;
    let (start, end) = both(start, boxed(alloc, end))?;
    Ok(Found { node: Pat::Span { start, inclusive, end }, need })
}
/// A `..` that no end follows: a rest pattern, or a range with a start alone.
fn open_span(
    alloc: Global,
    at: &Ahead<'_>,
    start: Found<Option<SpanEnd>>,
) -> Result<Found<Pat>, ReadNone> {
    let need = start.need + 1;
    match start.node {
        Some(end) => {
            let start = boxed(alloc, Some(end))?;
            let (start, end) = both(start, boxed(alloc, None))?;
            Ok(Found { node: Pat::Span { start, inclusive: false, end }, need })
        }
        None => Ok(Found { node: Pat::Rest, need: 1 }),
    }
}
/// Parses a range pattern from its `..` or `..=` on, or a rest pattern.
pub fn span(
    alloc: Global,
    at: &mut Ahead<'_>,
    depth: u32,
    start: Found<Option<SpanEnd>>,
) -> Result<Found<Pat>, ReadNone> {
    if at.op_is(b"..=") {
        pass_three(at);
        return closed_span(alloc, at, depth, start, true);
    }
    pass_two(at);
    if begins_span_end(at) { closed_span(alloc, at, depth, start, false) } else {
        open_span(alloc, at, start)
    }
}
/// Parses a literal, or a range pattern that begins with one.
pub fn value_pat(
    alloc: Global,
    at: &mut Ahead<'_>,
    depth: u32,
) -> Result<Found<Pat>, ReadNone> {
    let value = read_value(alloc, at)?;
    if begins_dots(at) {
        let start = Found { node: Some(SpanEnd::Value(value)), need: 0 };
        span(alloc, at, depth, start)
    } else { Ok(Found { node: Pat::Value { value }, need: 1 }) }
}
