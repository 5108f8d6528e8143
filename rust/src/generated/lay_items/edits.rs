//! Made by scripts/rust.sh from crates/lay_items/src/edits.rt, which is proved: change that.
//!
//! A file with the texts of its items, and edits of it.
use crate::generated::lay_items::lists::{insert_both, remove_both, replace_both};
use crate::generated::lay_items::printing::{head_of, outputs_of, push_all};
use crate::generated::lay_items::reading::{EditError, Laid, one_item};
use crate::generated::lay_code::File;
use crate::generated::lay_files::{FileError, read_bytes};
use crate::generated::lay_text::{FormatError, List, NoMemory, Text};
use crate::shims::Global;
/// A file with the text of its beginning, and the text of each item.
pub struct Items {
    alloc: Global,
    file: File,
    head: Text,
    outputs: List<Text>,
}
impl Items {
    /// Parses the bytes as a file, and lays it out.
    pub fn from_bytes(alloc: Global, bytes: &[u8]) -> Result<Items, FormatError> {
        match read_bytes(alloc, bytes) {
            Ok(file) => {
                match Items::from_file(alloc, file) {
                    Ok(items) => Ok(items),
                    Err(NoMemory) => Err(FormatError::NoMemory),
                }
            }
            Err(FileError::Refused { refusal, .. }) => {
                Err(FormatError::Refused(refusal))
            }
            Err(FileError::NoMemory) => Err(FormatError::NoMemory),
        }
    }
    /// The file with the texts of its parts.
    fn from_file(alloc: Global, file: File) -> Result<Items, NoMemory> {
        let mut file = file;
        let head = head_of(alloc, &mut file)?;
        let outputs = outputs_of(alloc, file.items.as_slice())?;
        Ok(Items { alloc, file, head, outputs })
    }
    /// The file.
    pub fn file(&self) -> &File {
        &self.file
    }
    /// How many items the file has.
    pub fn len(&self) -> usize {
        self.file.items.as_slice().len()
    }
    /// The text of the beginning of the file: its shebang line, if it has one, and its inner
    /// attributes.
    pub fn head(&self) -> &[u8] {
        self.head.as_bytes()
    }
    /// The text of the item with this index.
    pub fn output(&self, index: usize) -> &[u8] {
        self.outputs.as_slice()[index].as_bytes()
    }
    /// The text of the file: that of its beginning, and then that of each item, in order.
    pub fn whole(&self) -> Result<Text, NoMemory> {
        let mut whole = Text::from_bytes(self.alloc, self.head.as_bytes())?;
        push_all(&mut whole, self.outputs.as_slice())?;
        Ok(whole)
    }
    /// Inserts the item that a text spells, so that it has this index. An error changes nothing.
    pub fn insert(&mut self, index: usize, text: &[u8]) -> Result<(), EditError> {
        let alloc = self.alloc;
        let Laid { item, output } = one_item(alloc, text)?;
        let items = &mut self.file.items;
        let outputs = &mut self.outputs;
        match insert_both(alloc, items, outputs, index, item, output) {
            Ok(()) => Ok(()),
            Err(NoMemory) => Err(EditError::NoMemory),
        }
    }
    /// Replaces the item with this index by the one that a text spells. An error changes nothing.
    pub fn replace(&mut self, index: usize, text: &[u8]) -> Result<(), EditError> {
        let alloc = self.alloc;
        let Laid { item, output } = one_item(alloc, text)?;
        let items = &mut self.file.items;
        let outputs = &mut self.outputs;
        replace_both(alloc, items, outputs, index, item, output);
        Ok(())
    }
    /// Removes the item with this index. It doesn't allocate.
    pub fn remove(&mut self, index: usize) {
        remove_both(self.alloc, &mut self.file.items, &mut self.outputs, index);
    }
}
