//! Made by scripts/rust.sh from crates/lay_files/src/windows/parts.rt, which is proved: change that.
//!
//! Parsing of the parts of a file or of a module that are in a window.
use crate::generated::lay_files::windows::heads::{Head, add_attrs, read_head};
use crate::generated::lay_code::{Attr, File, Item, Site};
use crate::generated::lay_nest::{Cursor, Nested};
use crate::generated::lay_read_code::read_item;
use crate::generated::lay_read_tokens::ReadNone;
use crate::generated::lay_read_tokens::stop::keep;
use crate::generated::lay_token::List;
use crate::shims::Global;
/// Parses the tokens of a window as inner attributes and items, and appends these. If the head of a
/// module is at the end, it isn't read.
pub fn read_parts(
    alloc: Global,
    nested: &Nested,
    file: &mut File,
    depth: u32,
) -> Result<Option<Head>, ReadNone> {
    let mut at = nested.cursor();
    let is_first = file.items.as_slice().is_empty();
    add_inner(alloc, &mut at, is_first, &mut file.attrs)?;
    add_items(alloc, &mut at, &mut file.items, depth)?;
    if at.is_end() {
        return Ok(None);
    }
    if depth == 0 {
        return Err(ReadNone::NoReading);
    }
    match read_head(alloc, &mut at) {
        Ok(head) => Ok(Some(head)),
        Err(error) => Err(error),
    }
}
/// Parses inner attributes and appends them, as many as there are, if they may stand here.
fn add_inner(
    alloc: Global,
    at: &mut Cursor<'_>,
    may: bool,
    attrs: &mut List<Attr>,
) -> Result<(), ReadNone> {
    if may { add_attrs(alloc, at, true, attrs) } else { Ok(()) }
}
/// Parses items and appends them, as many as there are.
fn add_items(
    alloc: Global,
    at: &mut Cursor<'_>,
    items: &mut List<Item>,
    depth: u32,
) -> Result<(), ReadNone> {
    for _ in 0..usize::MAX {
        match read_item(alloc, at, Site::Module, depth) {
            Ok(item) => keep(items, item)?,
            Err(ReadNone::NoReading) => return Ok(()),
            Err(ReadNone::NoMemory) => return Err(ReadNone::NoMemory),
        }
    }
    Ok(())
}
