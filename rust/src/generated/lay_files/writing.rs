//! Made by scripts/rust.sh from crates/lay_files/src/writing.rt, which is proved: change that.
//!
//! Formatting of trees: from a file to its text.
use crate::generated::lay_files::keep::Keeper;
use crate::generated::lay_files::laid::Laid;
use crate::generated::lay_code::{Expr, File};
use crate::generated::lay_io::Sink;
use crate::generated::lay_printer::{Core, Press, PrintError};
use crate::generated::lay_token::{List, NoMemory, Text};
use crate::shims::Global;
/// The text of a file.
pub fn text_of(alloc: Global, file: &File) -> Result<Text, NoMemory> {
    laid_text(alloc, file)
}
/// The text of `const _: () = e;`, where `e` is the expression with each part in parentheses.
pub fn enclosed_text_of(alloc: Global, expr: &Expr) -> Result<Text, NoMemory> {
    laid_text(alloc, expr)
}
/// The text of a file, as a list of its bytes.
pub fn bytes_of(alloc: Global, file: &File) -> Result<List<u8>, NoMemory> {
    laid_bytes(alloc, file)
}
/// Writes the text of a file, piece by piece as it is laid out.
pub fn write_file<
    K: Sink,
>(alloc: Global, file: &File, out: &mut K) -> Result<(), PrintError> {
    write_laid(alloc, file, out)
}
/// The text of what has the layout of a file.
fn laid_text<L: Laid>(alloc: Global, node: &L) -> Result<Text, NoMemory> {
    let bytes = laid_bytes(alloc, node)?;
    Text::from_bytes(alloc, bytes.as_slice())
}
/// The text of what has the layout of a file, as a list of bytes.
fn laid_bytes<L: Laid>(alloc: Global, node: &L) -> Result<List<u8>, NoMemory> {
    let mut keeper = Keeper::new(alloc);
    match write_laid(alloc, node, &mut keeper) {
        Ok(()) => Ok(keeper.into_list()),
        Err(PrintError::WriteFailed | PrintError::NoMemory) => Err(NoMemory),
    }
}
/// Writes the text of what has the layout of a file, piece by piece.
fn write_laid<
    L: Laid,
    K: Sink,
>(alloc: Global, node: &L, out: &mut K) -> Result<(), PrintError> {
    let mut core = match Core::new(alloc) {
        Ok(core) => core,
        Err(NoMemory) => return Err(PrintError::NoMemory),
    };
    let mut press = Press::new(&mut core, out);
    node.put(&mut press)?;
    press.finish()
}
