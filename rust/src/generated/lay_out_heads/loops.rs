//! Made by scripts/rust.sh from crates/lay_out_heads/src/loops.rt, which is proved: change that.
//!
//! The loops over consecutive parts, and what is laid out around parts and bodies.
use crate::generated::lay_out_heads::calls::{add_break, add_inside};
use crate::generated::lay_out_tokens::HARD_BREAK;
use crate::generated::lay_out_tokens::notation::{CLOSING_HARD_BREAK, NEVER_BREAK};
use crate::generated::lay_out_types::calls::{add_either, add_text};
use crate::generated::lay_out_types::lists::{add_close, add_end, add_lead};
use crate::generated::lay_stream::Emit;
/// A part whose layout doesn't depend on where it stands.
pub trait Part {
    /// Emits the layout of the part.
    fn add<
        E: Emit,
    >(&self, out: &mut E, before: Result<(), E::Fault>) -> Result<(), E::Fault>;
}
/// Emits parts in parentheses, with a `,` between them. The flag says whether a comma may follow
/// the last one.
pub(crate) fn add_parens<
    E: Emit,
    P: Part,
>(
    out: &mut E,
    before: Result<(), E::Fault>,
    parts: &[P],
    may: bool,
) -> Result<(), E::Fault> {
    let mut done = before;
    for (index, part) in parts.iter().enumerate() {
        done = add_lead(out, done, index == 0, b"(");
        done = part.add(out, done);
    }
    add_close(out, done, may, parts.is_empty(), b"()", b")")
}
/// Emits parts in braces, each on a line of its own with a `,` after it. The braces have a leading
/// blank or not.
pub fn add_braces<
    E: Emit,
    P: Part,
>(
    out: &mut E,
    before: Result<(), E::Fault>,
    parts: &[P],
    lead: bool,
) -> Result<(), E::Fault> {
    let mut done = before;
    for (index, part) in parts.iter().enumerate() {
        done = add_line(out, done, index == 0, lead);
        done = part.add(out, done);
    }
    close_braces(out, done, parts.is_empty(), lead)
}
/// Emits what stands before a part in braces: the `{` before the first one, else a comma; and a
/// newline.
fn add_line<
    E: Emit,
>(
    out: &mut E,
    before: Result<(), E::Fault>,
    first: bool,
    lead: bool,
) -> Result<(), E::Fault> {
    if first {
        let body = open_body(out, before, lead);
        return add_break(out, body, HARD_BREAK);
    }
    let comma = add_text(out, before, b",");
    add_break(out, comma, HARD_BREAK)
}
/// Closes the braces, on a line of their own, after the last `,`. Without parts both braces are one
/// text.
fn close_braces<
    E: Emit,
>(
    out: &mut E,
    before: Result<(), E::Fault>,
    bare: bool,
    lead: bool,
) -> Result<(), E::Fault> {
    if bare {
        return add_either(out, before, lead, b" {}", b"{}");
    }
    let last = add_text(out, before, b",");
    close_body(out, last)
}
/// Opens a body. What stands before its brace is measured up to the brace, which has a leading
/// blank or not, as the flag says.
pub fn open_body<
    E: Emit,
>(out: &mut E, before: Result<(), E::Fault>, lead: bool) -> Result<(), E::Fault> {
    let brace = add_either(out, before, lead, b" {", b"{");
    let never = add_break(out, brace, NEVER_BREAK);
    add_inside(out, never)
}
/// Closes a body, on a line of its own.
pub fn close_body<
    E: Emit,
>(out: &mut E, before: Result<(), E::Fault>) -> Result<(), E::Fault> {
    let line = add_break(out, before, CLOSING_HARD_BREAK);
    let end = add_end(out, line);
    add_text(out, end, b"}")
}
