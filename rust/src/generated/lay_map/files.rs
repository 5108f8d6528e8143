//! Made by scripts/rust.sh from crates/lay_map/src/files.rt, which is proved: change that.
//!
//! The units of the tokens that spell a file.
use crate::generated::lay_map::ahead::Ahead;
use crate::generated::lay_map::marker::Marker;
use crate::generated::lay_map::unit::{Span, Unit, units_of_spans};
use crate::generated::lay_code::File;
use crate::generated::lay_lex::one_by_one::Cursor;
use crate::generated::lay_nest::Nested;
use crate::generated::lay_out_code::put_file;
use crate::generated::lay_text::{List, NoMemory};
use crate::shims::Global;
/// The units of the tokens, which spell the file, in order: each token that matters, and the tokens
/// of one documentation together. Punctuation that the grammar allows but doesn't require is in no
/// unit.
///
/// The tokens are those that some text lexes to. If a unit begins after 2^32 bytes, or is as long,
/// the error is `NoMemory`.
pub fn units(
    alloc: Global,
    file: &File,
    nested: &Nested,
) -> Result<List<Unit>, NoMemory> {
    let cursor = nested.cursor();
    let spans = found(alloc, file, Ahead::Tokens(cursor.as_slice()))?;
    units_of_spans(alloc, spans.as_slice())
}
/// The units of the tokens of a text, lexed from the byte offset `start` on. No list of these
/// tokens is made, and each unit is kept in 8 bytes.
pub fn units_of_text(
    alloc: Global,
    file: &File,
    text: &str,
    start: usize,
) -> Result<List<Span>, NoMemory> {
    found(alloc, file, Ahead::Text(Cursor::new(text, start)))
}
/// The units of these tokens.
fn found(alloc: Global, file: &File, tokens: Ahead<'_>) -> Result<List<Span>, NoMemory> {
    let mut marker = Marker::new(alloc, tokens, file.shebang.is_some());
    put_file(&mut marker, file)?;
    marker.into_units()
}
