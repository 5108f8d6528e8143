//! Made by scripts/rust.sh from crates/lay_read_code/src/file.rt, which is proved: change that.
//!
//! Parsing of files.
use crate::generated::lay_read_code::knot::item_ahead;
use crate::generated::lay_code::{Attr, File, Item, Site};
use crate::generated::lay_nest::{Cursor, Nested};
use crate::generated::lay_read_tokens::{Ahead, ReadNone, read_attr};
use crate::generated::lay_token::{FormatError, List, NoMemory, Refusal, Text};
use crate::shims::Global;
/// Parses a file with this shebang line. If the tokens spell no file, the syntax error is at the
/// token before which the longest run of inner attributes and then items ends.
///
/// The items of the file fit in `depth` levels, and items within an item in one fewer; with 0
/// levels none is read. So a file needs no more stack than this depth takes.
///
/// The tokens are those that some text lexes to. The shebang line, if there is one, is a whole
/// first line.
pub fn read_file(
    alloc: Global,
    nested: &Nested,
    shebang: Option<Text>,
    depth: u32,
) -> Result<File, FormatError> {
    let mut at = nested.cursor();
    match read_front(alloc, &mut at, depth) {
        Ok((attrs, items)) => {
            match at.peek(0) {
                Some(token) => {
                    Err(FormatError::Refused(Refusal::NoItem { at: token.at }))
                }
                None => Ok(File { shebang, attrs, items }),
            }
        }
        Err(NoMemory) => Err(FormatError::NoMemory),
    }
}
/// Parses inner attributes and then items, as many as there are.
fn read_front(
    alloc: Global,
    at: &mut Cursor<'_>,
    depth: u32,
) -> Result<(List<Attr>, List<Item>), NoMemory> {
    let attrs = inner_attrs(alloc, at)?;
    let mut ahead = Ahead::new(at.fork());
    let items = top_items(alloc, &mut ahead, depth)?;
    *at = ahead.into_cursor();
    Ok((attrs, items))
}
/// Parses inner attributes, as many as there are.
fn inner_attrs(alloc: Global, at: &mut Cursor<'_>) -> Result<List<Attr>, NoMemory> {
    let mut attrs = List::new(alloc);
    while let Some(attr) = next_attr(alloc, at)? {
        hold(&mut attrs, attr)?;
    }
    Ok(attrs)
}
/// Parses the next inner attribute, or gives `None`; then the cursor doesn't move.
fn next_attr(alloc: Global, at: &mut Cursor<'_>) -> Result<Option<Attr>, NoMemory> {
    match read_attr(alloc, at, true) {
        Ok(attr) => Ok(Some(attr)),
        Err(ReadNone::NoReading) => Ok(None),
        Err(ReadNone::NoMemory) => Err(NoMemory),
    }
}
/// Parses items of a file, as many as there are.
fn top_items(
    alloc: Global,
    at: &mut Ahead<'_>,
    depth: u32,
) -> Result<List<Item>, NoMemory> {
    let mut items = List::new(alloc);
    while let Some(item) = next_item(alloc, at, depth)? {
        hold(&mut items, item)?;
    }
    Ok(items)
}
/// Parses the next item of a file, or gives `None`; then the cursor doesn't move.
fn next_item(
    alloc: Global,
    at: &mut Ahead<'_>,
    depth: u32,
) -> Result<Option<Item>, NoMemory> {
    let mut behind = at.fork();
    match item_ahead(alloc, &mut behind, Site::Module, depth) {
        Ok(found) => {
            *at = behind;
            Ok(Some(found.node))
        }
        Err(ReadNone::NoReading) => Ok(None),
        Err(ReadNone::NoMemory) => Err(NoMemory),
    }
}
/// Appends a node.
fn hold<T>(list: &mut List<T>, node: T) -> Result<(), NoMemory> {
    match list.push(node) {
        Ok(()) => Ok(()),
        Err(_) => Err(NoMemory),
    }
}
