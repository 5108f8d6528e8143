//! Made by scripts/rust.sh from crates/lay_read_shared/src/loops.rt, which is proved: change that.
//!
//! The loop over consecutive parts, which is given a reader of parts.
use crate::generated::lay_ops::ahead::{begins_step, strength};
use crate::generated::lay_read_parts::loops::Part;
use crate::generated::lay_read_tokens::found::greater;
use crate::generated::lay_read_tokens::front::{has_items, is_at_keyword, takes_keyword};
use crate::generated::lay_read_tokens::stop::keep;
use crate::generated::lay_read_tokens::{Ahead, Found, ReadNone};
use crate::generated::lay_token::List;
use crate::shims::Global;
/// A list that goes on as long as a further part begins.
#[derive(Clone, Copy,)]
pub enum Going {
    /// Postfix steps.
    Steps,
    /// Operators of this precedence level with their operands.
    Operands(u8),
    /// Types after `as`.
    Types,
    /// Statements or items, up to the `}`.
    Items,
    /// Branches after `else if`.
    ElseIfs,
}
/// Whether `else if` comes next.
fn begins_else_if(at: &Ahead<'_>) -> bool {
    let mut behind = at.fork();
    takes_keyword(&mut behind, b"else") && is_at_keyword(&behind, b"if")
}
/// Whether a further part begins with the next tokens.
fn goes_on(at: &Ahead<'_>, going: Going) -> bool {
    match going {
        Going::Steps => begins_step(at),
        Going::Operands(level) => strength(at) as u16 == level as u16 + 1,
        Going::Types => is_at_keyword(at, b"as"),
        Going::Items => has_items(at),
        Going::ElseIfs => begins_else_if(at),
    }
}
/// Appends the part to `nodes`, and gives the depth that it needs. It is a function of its own, so
/// that the loop's frame has no room for these moves while a part is read.
#[inline(never)]
fn keep_part<
    T,
>(nodes: &mut List<T>, part: Result<Found<T>, ReadNone>) -> Result<u32, ReadNone> {
    match part {
        Ok(found) => {
            keep(nodes, found.node)?;
            Ok(found.need)
        }
        Err(none) => Err(none),
    }
}
/// Parses parts as long as one begins.
#[inline(never)]
pub fn read_parts<
    P: Part<T, X>,
    R,
    T,
    X: Copy,
    E: Fn(&R, &mut Ahead<'_>, X) -> Result<Found<T>, ReadNone>,
>(
    alloc: Global,
    at: &mut Ahead<'_>,
    depth: u32,
    going: Going,
    rules: &R,
    part: E,
    place: X,
) -> Result<Found<List<T>>, ReadNone> {
    let mut nodes = List::new(alloc);
    let mut need = 0;
    while goes_on(at, going) {
        let needed = keep_part(&mut nodes, part(rules, at, place))?;
        need = greater(need, needed);
    }
    Ok(Found { node: nodes, need })
}
