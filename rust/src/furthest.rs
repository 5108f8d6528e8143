//! How far reading came in an item that is refused.
use crate::error::{Cause, Error, Position};
use crate::generated::lay_code::Site;
use crate::generated::lay_files::DEPTH;
use crate::generated::lay_lex::{lex, normalise};
use crate::generated::lay_nest::nest;
use crate::generated::lay_read_code::read_item;
use crate::generated::lay_read_tokens::{ReadNone, read_attr};
use crate::generated::lay_token::place_of;
use crate::shims::Global;

/// The error with how far reading came, where an item is refused. The item is read once more for
/// that, and all after it lexed: where a source is accepted nothing is done twice. Where memory for
/// it is wanting the error stays as it is.
pub(crate) fn with_furthest(error: Error, source: &[u8]) -> Error {
    match error.cause() {
        Cause::NoItem => error.with_furthest(furthest(source, error.offset())),
        _ => error,
    }
}

/// How far reading comes in what begins at an offset of a source, at which an item is refused.
fn furthest(bytes: &[u8], start: usize) -> Option<Position> {
    let mut source = normalise(Global, bytes).ok()?;
    // No item begins within a token or a group, so the rest of the source has tokens and groups of
    // its own.
    source.start = start;
    let nested = nest(Global, lex(Global, &source).ok()?).ok()?;
    // What begins here may have been meant as an attribute of the file.
    let attr = read_attr(Global, &mut nested.cursor(), true);
    let item = read_item(Global, &mut nested.cursor(), Site::Module, DEPTH);
    if matches!(attr, Err(ReadNone::NoMemory)) || matches!(item, Err(ReadNone::NoMemory)) {
        return None;
    }
    let text = source.text.as_slice();
    let offset = nested.furthest().map_or(text.len(), |token| token.at);
    let place = place_of(text, offset);
    Some(Position { line: place.line, column: place.column, offset })
}
