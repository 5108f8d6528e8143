//! Made by scripts/rust.sh from crates/lay_files/src/streamed/lines.rt, which is proved: change that.
//!
//! The layout of parts of a file or of a module, each on a line of its own.
use crate::generated::lay_code::{Attr, Item};
use crate::generated::lay_out_code::put_item;
use crate::generated::lay_out_tokens::{HARD_BREAK, put_bare_attr};
use crate::generated::lay_stream::Emit;
/// Emits an inner attribute, with a newline before it if it is inside a module, else after it.
pub fn put_attr_line<
    E: Emit,
>(out: &mut E, within: bool, attr: &Attr) -> Result<(), E::Fault> {
    put_line_before(out, within)?;
    put_bare_attr(out, attr)?;
    put_line_behind(out, within)
}
/// Emits an item, with a newline before it if it is inside a module, else after it.
pub fn put_item_line<
    E: Emit,
>(out: &mut E, within: bool, item: &Item) -> Result<(), E::Fault> {
    put_line_before(out, within)?;
    put_item(out, item)?;
    put_line_behind(out, within)
}
/// Emits a newline before a part, if it is inside a module.
pub fn put_line_before<E: Emit>(out: &mut E, within: bool) -> Result<(), E::Fault> {
    if within { out.brk(HARD_BREAK) } else { Ok(()) }
}
/// Emits a newline after a part, if it isn't inside a module.
pub fn put_line_behind<E: Emit>(out: &mut E, within: bool) -> Result<(), E::Fault> {
    if within { Ok(()) } else { out.brk(HARD_BREAK) }
}
