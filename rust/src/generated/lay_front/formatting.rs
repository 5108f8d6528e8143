//! Made by scripts/rust.sh from crates/lay_front/src/formatting.rt, which is proved: change that.
//!
//! Formatting of bytes and of trees, to a text or to a sink.
use crate::generated::lay_code::File;
use crate::generated::lay_files::{FileError, read_bytes, text_of, write_file};
use crate::generated::lay_io::Sink;
use crate::generated::lay_printer::PrintError;
use crate::generated::lay_token::{FormatError, NoMemory, Refusal, Text};
use crate::shims::Global;
/// Why a text wasn't written completely.
#[derive(Clone, Copy, Debug, PartialEq, Eq,)]
pub enum IntoError {
    /// The bytes have a syntax error. Nothing was written.
    Refused(Refusal),
    /// A write failed. A prefix of the text was written.
    WriteFailed,
    /// Memory could not be allocated. A prefix of the text was written.
    NoMemory,
}
/// Formats the bytes. The text parses to the same file as the bytes. `Refused` is given exactly if
/// the bytes have a syntax error.
pub fn format(alloc: Global, bytes: &[u8]) -> Result<Text, FormatError> {
    format_text(alloc, bytes)
}
/// The text of a file that can be written; it parses to that file. `is_written` of `lay_laws`
/// decides whether a file can be written.
pub fn unparse(alloc: Global, file: &File) -> Result<Text, NoMemory> {
    text_of(alloc, file)
}
/// Formats the bytes, and writes the text, which parses to the same file. `Refused` is given
/// exactly if the bytes have a syntax error.
pub fn format_into<
    K: Sink,
>(alloc: Global, bytes: &[u8], out: &mut K) -> Result<(), IntoError> {
    format_bytes(alloc, bytes, out)
}
/// Parses the bytes as a file, and gives its text.
fn format_text(alloc: Global, bytes: &[u8]) -> Result<Text, FormatError> {
    let file = match read_bytes(alloc, bytes) {
        Ok(file) => file,
        Err(FileError::Refused { refusal, .. }) => {
            return Err(FormatError::Refused(refusal))
        }
        Err(FileError::NoMemory) => return Err(FormatError::NoMemory),
    };
    match text_of(alloc, &file) {
        Ok(text) => Ok(text),
        Err(NoMemory) => Err(FormatError::NoMemory),
    }
}
/// Parses the bytes as a file, and writes its text.
fn format_bytes<
    K: Sink,
>(alloc: Global, bytes: &[u8], out: &mut K) -> Result<(), IntoError> {
    let file = match read_bytes(alloc, bytes) {
        Ok(file) => file,
        Err(FileError::Refused { refusal, .. }) => {
            return Err(IntoError::Refused(refusal))
        }
        Err(FileError::NoMemory) => return Err(IntoError::NoMemory),
    };
    match write_file(alloc, &file, out) {
        Ok(()) => Ok(()),
        Err(PrintError::WriteFailed) => Err(IntoError::WriteFailed),
        Err(PrintError::NoMemory) => Err(IntoError::NoMemory),
    }
}
