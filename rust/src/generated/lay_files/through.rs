//! Made by scripts/rust.sh from crates/lay_files/src/through.rt, which is proved: change that.
//!
//! Formatting of bytes without a tree of the whole file.
use crate::generated::lay_files::keep::Keeper;
use crate::generated::lay_files::reading::{DEPTH, FileError, placed, read_tokens};
use crate::generated::lay_files::streamed::{NotPut, put_source, told};
use crate::generated::lay_files::writing::bytes_of;
use crate::generated::lay_io::Sink;
use crate::generated::lay_lex::{Source, normalise};
use crate::generated::lay_out_code::put_shebang;
use crate::generated::lay_printer::{Core, Press, PrintError};
use crate::generated::lay_read_tokens::ReadNone;
use crate::generated::lay_token::{List, NoMemory};
use crate::shims::Global;
/// Formats the bytes, or gives the syntax error and its place.
///
/// The items in a window of tokens are laid out and dropped before the next window is lexed. The
/// text is kept until everything was read. If the bytes can't be read window by window, they are
/// parsed from all tokens, which gives the syntax error if there is one.
pub fn format_bytes(alloc: Global, bytes: &[u8]) -> Result<List<u8>, FileError> {
    let source = match normalise(alloc, bytes) {
        Ok(source) => source,
        Err(error) => return Err(placed(error, bytes)),
    };
    match format_source(alloc, &source) {
        Ok(text) => Ok(text),
        Err(ReadNone::NoMemory) => Err(FileError::NoMemory),
        Err(ReadNone::NoReading) => format_tokens(alloc, source),
    }
}
/// Formats a prepared text, parsed from all its tokens.
fn format_tokens(alloc: Global, source: Source) -> Result<List<u8>, FileError> {
    let file = match read_tokens(alloc, source, DEPTH) {
        Ok(file) => file,
        Err(error) => return Err(error),
    };
    match bytes_of(alloc, &file) {
        Ok(text) => Ok(text),
        Err(NoMemory) => Err(FileError::NoMemory),
    }
}
/// Formats a prepared text window by window, if it can be read so.
fn format_source(alloc: Global, source: &Source) -> Result<List<u8>, ReadNone> {
    let mut keeper = Keeper::new(alloc);
    match write_source(alloc, source, &mut keeper) {
        Ok(()) => Ok(keeper.into_list()),
        Err(NotPut::NoReading) => Err(ReadNone::NoReading),
        Err(NotPut::NoMemory | NotPut::Fault(_)) => Err(ReadNone::NoMemory),
    }
}
/// Writes the formatted text window by window, if it can be read so. Otherwise what was written
/// says nothing.
fn write_source<
    K: Sink,
>(alloc: Global, source: &Source, out: &mut K) -> Result<(), NotPut<PrintError>> {
    let mut core = match Core::new(alloc) {
        Ok(core) => core,
        Err(NoMemory) => return Err(NotPut::NoMemory),
    };
    let mut press = Press::new(&mut core, out);
    told(put_shebang(&mut press, &source.shebang))?;
    put_source(alloc, source, DEPTH, &mut press)?;
    told(press.finish())
}
