//! Made by scripts/rust.sh from crates/lay_files/src/streamed/parts.rt, which is proved: change that.
//!
//! The layout of the parts of a file or of a module that are in a window.
use crate::generated::lay_files::streamed::lines::{put_attr_line, put_item_line};
use crate::generated::lay_files::streamed::stop::{NotPut, told, unread};
use crate::generated::lay_files::windows::heads::{Head, read_head};
use crate::generated::lay_code::Site;
use crate::generated::lay_nest::{Cursor, Nested};
use crate::generated::lay_read_code::read_item;
use crate::generated::lay_read_tokens::{ReadNone, read_attr};
use crate::generated::lay_stream::Emit;
use crate::shims::Global;
/// Parses the tokens of a window as inner attributes and items, and emits these. If the head of a
/// module is at the end, it isn't emitted. The flag says whether items were emitted before, after
/// which no inner attribute may stand; the result says so for what follows.
pub fn put_parts<
    E: Emit,
>(
    alloc: Global,
    nested: &Nested,
    within: bool,
    are_items: &mut bool,
    depth: u32,
    out: &mut E,
) -> Result<Option<Head>, NotPut<E::Fault>> {
    let mut at = nested.cursor();
    put_inner(alloc, &mut at, within, *are_items, out)?;
    put_items(alloc, &mut at, within, are_items, depth, out)?;
    if at.is_end() {
        return Ok(None);
    }
    if depth == 0 {
        return Err(NotPut::NoReading);
    }
    match read_head(alloc, &mut at) {
        Ok(head) => Ok(Some(head)),
        Err(none) => Err(unread(none)),
    }
}
/// Parses inner attributes and emits them, as many as there are, if no items were emitted before.
fn put_inner<
    E: Emit,
>(
    alloc: Global,
    at: &mut Cursor<'_>,
    within: bool,
    are_items: bool,
    out: &mut E,
) -> Result<(), NotPut<E::Fault>> {
    if are_items { Ok(()) } else { put_attrs(alloc, at, within, out) }
}
/// Parses inner attributes and emits them, as many as there are.
fn put_attrs<
    E: Emit,
>(
    alloc: Global,
    at: &mut Cursor<'_>,
    within: bool,
    out: &mut E,
) -> Result<(), NotPut<E::Fault>> {
    for _ in 0..usize::MAX {
        match read_attr(alloc, at, true) {
            Ok(attr) => told(put_attr_line(out, within, &attr))?,
            Err(ReadNone::NoReading) => return Ok(()),
            Err(ReadNone::NoMemory) => return Err(NotPut::NoMemory),
        }
    }
    Ok(())
}
/// Parses items and emits them, as many as there are. Each is dropped before the next one is read.
fn put_items<
    E: Emit,
>(
    alloc: Global,
    at: &mut Cursor<'_>,
    within: bool,
    are_items: &mut bool,
    depth: u32,
    out: &mut E,
) -> Result<(), NotPut<E::Fault>> {
    for _ in 0..usize::MAX {
        match read_item(alloc, at, Site::Module, depth) {
            Ok(item) => told(put_item_line(out, within, &item))?,
            Err(ReadNone::NoReading) => return Ok(()),
            Err(ReadNone::NoMemory) => return Err(NotPut::NoMemory),
        }
        *are_items = true;
    }
    Ok(())
}
