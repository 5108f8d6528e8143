//! Made by scripts/rust.sh from crates/lay_build/src/files.rt, which is proved: change that.
//!
//! The builder of files.
use crate::generated::lay_build_types::{BuiltItem, nodes};
use crate::generated::lay_code::File;
use crate::generated::lay_text::{List, NoMemory};
use crate::shims::Global;
/// A file of these items. It can be written: it is normal, each name and literal in it is a piece
/// of its kind, and it is no deeper than a file may be.
pub fn file(alloc: Global, items: List<BuiltItem>) -> Result<File, NoMemory> {
    match nodes(alloc, items) {
        Ok(parts) => {
            let (items, _) = parts;
            Ok(File { shebang: None, attrs: List::new(alloc), items })
        }
        Err(_) => Err(NoMemory),
    }
}
