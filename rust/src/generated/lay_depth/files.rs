//! Made by scripts/rust.sh from crates/lay_depth/src/files.rt, which is proved: change that.
//!
//! The depth of files.
use crate::generated::lay_depth::items::items_depth;
use crate::generated::lay_code::File;
/// The depth of a file: that of its deepest item, or 0 if it has none; at most `u32::MAX`.
pub fn file_depth(file: &File) -> u32 {
    items_depth(file.items.as_slice())
}
