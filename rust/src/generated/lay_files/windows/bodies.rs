//! Made by scripts/rust.sh from crates/lay_files/src/windows/bodies.rt, which is proved: change that.
//!
//! Parsing of files and of the bodies of modules, window by window.
use crate::generated::lay_files::windows::heads::Head;
use crate::generated::lay_files::windows::parts::read_parts;
use crate::generated::lay_files::windows::window::read_window;
use crate::generated::lay_code::{File, Item, ItemKind};
use crate::generated::lay_lex::{Source, Stop};
use crate::generated::lay_read_tokens::ReadNone;
use crate::generated::lay_read_tokens::stop::{boxed, keep};
use crate::generated::lay_token::List;
use crate::shims::Global;
/// Parses the text as a file, without its shebang line, if the file can be read window by window.
///
/// The items of the file fit in `depth` levels, and items within an item in one fewer.
pub fn read_source(
    alloc: Global,
    source: &Source,
    depth: u32,
) -> Result<File, ReadNone> {
    let mut place = source.start;
    let mut file = empty(alloc);
    match read_body(alloc, source.as_str(), &mut place, &mut file, depth) {
        Ok(false) => Ok(file),
        Ok(true) => Err(ReadNone::NoReading),
        Err(error) => Err(error),
    }
}
/// An empty file.
fn empty(alloc: Global) -> File {
    File { shebang: None, attrs: List::new(alloc), items: List::new(alloc) }
}
/// Parses inner attributes and items from a byte offset on, to the end of the text, or past the
/// closing brace of the module that they are in. Says whether they end in that brace.
#[inline(never)]
fn read_body(
    alloc: Global,
    text: &str,
    place: &mut usize,
    file: &mut File,
    depth: u32,
) -> Result<bool, ReadNone> {
    for _ in 0..usize::MAX {
        let window = read_window(alloc, text, *place)?;
        let head = read_parts(alloc, &window.nested, file, depth)?;
        *place = window.end;
        match (window.stop, head) {
            (Stop::More, None) => {}
            (Stop::Opened, Some(head)) if depth > 0 => {
                let mut body = empty(alloc);
                if !read_body(alloc, text, place, &mut body, depth - 1)? {
                    return Err(ReadNone::NoReading);
                }
                let item = module(alloc, head, body)?;
                keep(&mut file.items, item)?;
            }
            (Stop::End, None) => return Ok(false),
            (Stop::Closed, None) => return Ok(true),
            _ => return Err(ReadNone::NoReading),
        }
    }
    Err(ReadNone::NoReading)
}
/// The module with this head, and the attributes and items of this body.
fn module(alloc: Global, head: Head, body: File) -> Result<Item, ReadNone> {
    let Head { attrs, vis, name } = head;
    let File { shebang: _, attrs: inner, items } = body;
    let kind = boxed(alloc, ItemKind::Module { name, attrs: inner, items })?;
    Ok(Item { attrs, vis, kind })
}
