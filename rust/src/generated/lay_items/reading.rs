//! Made by scripts/rust.sh from crates/lay_items/src/reading.rt, which is proved: change that.
//!
//! Parsing of a text as one item.
use crate::generated::lay_items::printing::output_of;
use crate::generated::lay_code::{File, Item};
use crate::generated::lay_files::{FileError, read_bytes};
use crate::generated::lay_text::{NoMemory, Refusal, Text};
use crate::shims::Global;
/// How many of each kind of part a file has.
#[derive(Clone, Copy, Debug, PartialEq, Eq,)]
pub struct Shape {
    /// Whether it has a shebang line.
    pub shebang: bool,
    /// How many inner attributes it has.
    pub attrs: usize,
    /// How many items it has.
    pub items: usize,
}
/// Why an edit failed. Nothing was changed.
#[derive(Clone, Copy, Debug, PartialEq, Eq,)]
pub enum EditError {
    /// The text has a syntax error.
    Refused(Refusal),
    /// The text is a file of this shape, and not exactly one item.
    NotOneItem(Shape),
    /// Memory could not be allocated.
    NoMemory,
}
/// An item and its text.
pub(crate) struct Laid {
    pub(crate) item: Item,
    pub(crate) output: Text,
}
/// Parses a text as one item, and lays it out.
pub(crate) fn one_item(alloc: Global, text: &[u8]) -> Result<Laid, EditError> {
    let file = match read_bytes(alloc, text) {
        Ok(file) => file,
        Err(FileError::Refused { refusal, .. }) => {
            return Err(EditError::Refused(refusal))
        }
        Err(FileError::NoMemory) => return Err(EditError::NoMemory),
    };
    let item = match only(file) {
        Ok(item) => item,
        Err(shape) => return Err(EditError::NotOneItem(shape)),
    };
    match output_of(alloc, &item) {
        Ok(output) => Ok(Laid { item, output }),
        Err(NoMemory) => Err(EditError::NoMemory),
    }
}
/// The item of a file that holds nothing else; otherwise the file's shape.
fn only(file: File) -> Result<Item, Shape> {
    let File { shebang, attrs, items } = file;
    let mut items = items.into_vec();
    let shape = Shape {
        shebang: shebang.is_some(),
        attrs: attrs.as_slice().len(),
        items: items.len(),
    };
    let is_one = !shape.shebang && shape.attrs == 0 && shape.items == 1;
    match items.pop() {
        Some(item) if is_one => Ok(item),
        _ => Err(shape),
    }
}
