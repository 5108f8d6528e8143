//! Made by scripts/rust.sh from crates/lay_files/src/reading.rt, which is proved: change that.
//!
//! Parsing of whole files.
use crate::generated::lay_files::windows::read_source;
use crate::generated::lay_code::File;
use crate::generated::lay_lex::{Source, lex, normalise};
use crate::generated::lay_nest::nest;
use crate::generated::lay_read_tokens::ReadNone;
use crate::generated::lay_token::{FormatError, NoMemory, Place2, Refusal, place_of};
use crate::shims::Global;
/// Why parsing failed.
#[derive(Clone, Copy, Debug, PartialEq, Eq,)]
pub enum FileError {
    /// A syntax error at this place. It counts in the bytes themselves if they aren't UTF-8, else
    /// in the text that is lexed, which has no byte order mark and one LF for each CR LF.
    Refused {
        refusal: Refusal,
        place: Place2,
    },
    /// Memory could not be allocated.
    NoMemory,
}
/// The depth limit of the items of a file.
pub const DEPTH: u32 = 256;
/// Parses the bytes as a file. The syntax errors: bytes that aren't UTF-8, a place where no token
/// begins, a delimiter without a partner, and tokens that spell no file.
pub fn read_bytes(alloc: Global, bytes: &[u8]) -> Result<File, FileError> {
    read_within(alloc, bytes, DEPTH)
}
/// Parses the bytes as a file whose items fit in `depth` levels. It needs no more stack than a file
/// of that depth, whatever the bytes are.
///
/// The bytes are read window by window first. If that reads no file, they are parsed from all their
/// tokens, which gives the syntax error if there is one.
pub fn read_within(alloc: Global, bytes: &[u8], depth: u32) -> Result<File, FileError> {
    let source = match normalise(alloc, bytes) {
        Ok(source) => source,
        Err(error) => return Err(placed(error, bytes)),
    };
    match read_source(alloc, &source, depth) {
        Ok(file) => {
            return Ok(
                File { shebang: source.shebang, attrs: file.attrs, items: file.items },
            );
        }
        Err(ReadNone::NoMemory) => return Err(FileError::NoMemory),
        Err(ReadNone::NoReading) => {}
    }
    read_tokens(alloc, source, depth)
}
/// Parses a prepared text from all its tokens.
pub(crate) fn read_tokens(
    alloc: Global,
    source: Source,
    depth: u32,
) -> Result<File, FileError> {
    let tokens = match lex(alloc, &source) {
        Ok(tokens) => tokens,
        Err(error) => return Err(placed(error, source.text.as_slice())),
    };
    let nested = match nest(alloc, tokens) {
        Ok(nested) => nested,
        Err(error) => return Err(placed(error, source.text.as_slice())),
    };
    match crate::generated::lay_read_code::read_file(
        alloc,
        &nested,
        source.shebang,
        depth,
    ) {
        Ok(file) => Ok(file),
        Err(error) => Err(placed(error, source.text.as_slice())),
    }
}
/// The error with the place of a syntax error, which is counted in this text.
pub(crate) fn placed(error: FormatError, text: &[u8]) -> FileError {
    match error {
        FormatError::Refused(refusal) => {
            FileError::Refused { refusal, place: place_of(text, number(refusal)) }
        }
        FormatError::NoMemory => FileError::NoMemory,
    }
}
/// The place of this syntax error of the bytes, as [`read_bytes`] gives it.
pub fn refused_at(
    alloc: Global,
    bytes: &[u8],
    refusal: Refusal,
) -> Result<Place2, NoMemory> {
    match normalise(alloc, bytes) {
        Ok(source) => Ok(place_of(source.text.as_slice(), number(refusal))),
        Err(FormatError::Refused(_)) => Ok(place_of(bytes, number(refusal))),
        Err(FormatError::NoMemory) => Err(NoMemory),
    }
}
/// The byte offset of a syntax error.
fn number(refusal: Refusal) -> usize {
    match refusal {
        Refusal::NotUtf8 { at } | Refusal::NoToken { at } | Refusal::Unbalanced { at }
        | Refusal::NoItem { at } => at,
    }
}
