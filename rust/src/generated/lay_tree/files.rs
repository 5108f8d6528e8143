//! Made by scripts/rust.sh from crates/lay_tree/src/files.rt, which is proved: change that.
//!
//! Equality of files.
use crate::generated::lay_tree::equal::same_items;
use crate::generated::lay_code::File;
use crate::generated::lay_same_nodes::Same;
/// Whether two files are equal: their shebang, their inner attributes, and their items in order.
pub fn same(file: &File, other: &File) -> bool {
    file.shebang.same(&other.shebang) && file.attrs.same(&other.attrs)
        && same_items(file.items.as_slice(), other.items.as_slice())
}
