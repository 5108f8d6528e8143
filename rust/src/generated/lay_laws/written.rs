//! Made by scripts/rust.sh from crates/lay_laws/src/written.rt, which is proved: change that.
//!
//! Which trees can be written as files.
use crate::generated::lay_depth::file_depth;
use crate::generated::lay_files::{DEPTH, FileError, read_within, text_of};
use crate::generated::lay_token::NoMemory;
use crate::generated::lay_tree::{File, same};
use crate::shims::Global;
/// Whether the file can be written: it is normal, each of its nodes meets the conditions of its
/// form, each name, word and literal is a piece of its kind, and it is no deeper than files may be.
/// So some text parses to it, and its layout gives such a text.
///
/// If the file is too deep, the answer is `false`. Otherwise it is laid out, whatever it holds. Its
/// text is parsed within its own depth, and the result is compared with it: a file that can be
/// written parses back, and what was parsed can be written. This takes time and memory in
/// proportion to the text, and stack for the depth of the file: its names may spell something
/// deeper, which is refused at that depth.
pub fn is_written(alloc: Global, file: &File) -> Result<bool, NoMemory> {
    let depth = file_depth(file);
    if depth > DEPTH {
        return Ok(false);
    }
    let text = text_of(alloc, file)?;
    match read_within(alloc, text.as_bytes(), depth) {
        Ok(read) => Ok(same(&read, file)),
        Err(FileError::Refused { .. }) => Ok(false),
        Err(FileError::NoMemory) => Err(NoMemory),
    }
}
