//! Made by scripts/rust.sh from crates/lay_files/src/streamed/modules.rt, which is proved: change that.
//!
//! The layout around the body of a module.
use crate::generated::lay_files::streamed::lines::{put_line_before, put_line_behind};
use crate::generated::lay_files::windows::heads::Head;
use crate::generated::lay_out_heads::items::open_head;
use crate::generated::lay_out_heads::loops::{close_body, open_body};
use crate::generated::lay_out_pats::add_attrs;
use crate::generated::lay_out_types::calls::{add_text, add_word};
use crate::generated::lay_out_types::lists::add_end;
use crate::generated::lay_stream::Emit;
/// Opens a module that isn't empty, with a newline before it if it is inside another one.
pub fn open<E: Emit>(out: &mut E, within: bool, head: &Head) -> Result<(), E::Fault> {
    put_head(out, within, head)?;
    open_body(out, Ok(()), true)
}
/// Closes a module that isn't empty, with a newline after it if it isn't inside another one.
pub fn close<E: Emit>(out: &mut E, within: bool) -> Result<(), E::Fault> {
    close_body(out, Ok(()))?;
    put_line_behind(out, within)
}
/// Emits an empty module.
pub fn put_empty<
    E: Emit,
>(out: &mut E, within: bool, head: &Head) -> Result<(), E::Fault> {
    put_head(out, within, head)?;
    out.text(b" {}")?;
    put_line_behind(out, within)
}
/// Emits the head of a module, on a line of its own inside another one.
fn put_head<E: Emit>(out: &mut E, within: bool, head: &Head) -> Result<(), E::Fault> {
    put_line_before(out, within)?;
    put_module_head(out, head)
}
/// Emits the head of a module, with its attributes, each with a newline after it.
fn put_module_head<E: Emit>(out: &mut E, head: &Head) -> Result<(), E::Fault> {
    let attrs = add_attrs(out, Ok(()), head.attrs.as_slice());
    let opened = open_head(out, attrs, &head.vis);
    let word = add_text(out, opened, b"mod ");
    let name = add_word(out, word, head.name.raw, &head.name.text);
    add_end(out, name)
}
