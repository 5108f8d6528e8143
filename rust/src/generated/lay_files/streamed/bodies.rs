//! Made by scripts/rust.sh from crates/lay_files/src/streamed/bodies.rt, which is proved: change that.
//!
//! The layout of files and of the bodies of modules, window by window.
use crate::generated::lay_files::streamed::modules::{close, open, put_empty};
use crate::generated::lay_files::streamed::parts::put_parts;
use crate::generated::lay_files::streamed::stop::{NotPut, told, unread};
use crate::generated::lay_files::windows::heads::Head;
use crate::generated::lay_files::windows::window::{Window, read_window};
use crate::generated::lay_lex::{Source, Stop};
use crate::generated::lay_stream::Emit;
use crate::shims::Global;
/// Emits the layout of the file that the tokens of the text spell, without its shebang line, if the
/// file can be read window by window.
///
/// The items of the file fit in `depth` levels, and items within an item in one fewer.
pub fn put_source<
    E: Emit,
>(
    alloc: Global,
    source: &Source,
    depth: u32,
    out: &mut E,
) -> Result<(), NotPut<E::Fault>> {
    let text = source.as_str();
    let mut place = source.start;
    let first = window_at(alloc, text, place)?;
    match put_body(alloc, text, &mut place, first, false, depth, out) {
        Ok(false) => Ok(()),
        Ok(true) => Err(NotPut::NoReading),
        Err(error) => Err(error),
    }
}
/// Emits inner attributes and items from a byte offset on, where the first window begins, to the
/// end of the text, or past the closing brace of the module that they are in. Says whether they end
/// in that brace. Inside a module each has a newline before it, else after it.
#[inline(never)]
fn put_body<
    E: Emit,
>(
    alloc: Global,
    text: &str,
    place: &mut usize,
    first: Window,
    within: bool,
    depth: u32,
    out: &mut E,
) -> Result<bool, NotPut<E::Fault>> {
    let mut window = first;
    let mut are_items = false;
    for _ in 0..usize::MAX {
        let head = put_parts(alloc, &window.nested, within, &mut are_items, depth, out)?;
        *place = window.end;
        match (window.stop, head) {
            (Stop::More, None) => window = window_at(alloc, text, *place)?,
            (Stop::Opened, Some(head)) if depth > 0 => {
                put_module(alloc, text, place, within, depth - 1, &head, out)?;
                are_items = true;
                window = window_at(alloc, text, *place)?;
            }
            (Stop::End, None) => return Ok(false),
            (Stop::Closed, None) => return Ok(true),
            _ => return Err(NotPut::NoReading),
        }
    }
    Err(NotPut::NoReading)
}
/// Emits the module with this head. Its body begins at the byte offset `place`, which is moved past
/// the closing brace.
fn put_module<
    E: Emit,
>(
    alloc: Global,
    text: &str,
    place: &mut usize,
    within: bool,
    depth: u32,
    head: &Head,
    out: &mut E,
) -> Result<(), NotPut<E::Fault>> {
    let first = window_at(alloc, text, *place)?;
    if is_empty_body(&first) {
        *place = first.end;
        return told(put_empty(out, within, head));
    }
    told(open(out, within, head))?;
    match put_body(alloc, text, place, first, true, depth, out) {
        Ok(true) => told(close(out, within)),
        Ok(false) => Err(NotPut::NoReading),
        Err(error) => Err(error),
    }
}
/// The window that begins at a byte offset.
fn window_at<F>(alloc: Global, text: &str, place: usize) -> Result<Window, NotPut<F>> {
    match read_window(alloc, text, place) {
        Ok(window) => Ok(window),
        Err(none) => Err(unread(none)),
    }
}
/// Whether the window is only the closing brace of a module, so the module is empty.
fn is_empty_body(window: &Window) -> bool {
    match window.stop {
        Stop::Closed => window.nested.cursor().is_end(),
        Stop::End | Stop::More | Stop::Opened => false,
    }
}
