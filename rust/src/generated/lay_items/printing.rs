//! Made by scripts/rust.sh from crates/lay_items/src/printing.rt, which is proved: change that.
//!
//! The texts of a file's parts.
use crate::shims::Vec;
use crate::generated::lay_code::{File, Item};
use crate::generated::lay_files::{Keeper, text_of};
use crate::generated::lay_io::Sink;
use crate::generated::lay_out_code::put_item;
use crate::generated::lay_out_tokens::HARD_BREAK;
use crate::generated::lay_printer::{Core, Press, PrintError};
use crate::generated::lay_stream::Emit;
use crate::generated::lay_text::{List, NoMemory, Text};
use crate::shims::Global;
use core::mem;
/// The text of the beginning of a file. The file is unchanged afterwards.
pub(crate) fn head_of(alloc: Global, file: &mut File) -> Result<Text, NoMemory> {
    let items = mem::replace(&mut file.items, List::new(alloc));
    let head = text_of(alloc, file);
    file.items = items;
    head
}
/// The texts of items.
pub(crate) fn outputs_of(alloc: Global, items: &[Item]) -> Result<List<Text>, NoMemory> {
    let mut outputs = Vec::new(alloc);
    for item in items {
        outputs.push(output_of(alloc, item)?)?;
    }
    Ok(List::from_vec(outputs))
}
/// The text of an item.
pub(crate) fn output_of(alloc: Global, item: &Item) -> Result<Text, NoMemory> {
    let mut keeper = Keeper::new(alloc);
    match write_alone(alloc, item, &mut keeper) {
        Ok(()) => Text::from_bytes(alloc, keeper.into_list().as_slice()),
        Err(PrintError::WriteFailed | PrintError::NoMemory) => Err(NoMemory),
    }
}
/// Writes the text of a file with only this item.
fn write_alone<
    K: Sink,
>(alloc: Global, item: &Item, out: &mut K) -> Result<(), PrintError> {
    let mut core = match Core::new(alloc) {
        Ok(core) => core,
        Err(NoMemory) => return Err(PrintError::NoMemory),
    };
    let mut press = Press::new(&mut core, out);
    put_alone(&mut press, item)?;
    press.finish()
}
/// Emits the layout of a file with only this item.
fn put_alone<E: Emit>(out: &mut E, item: &Item) -> Result<(), E::Fault> {
    put_item(out, item)?;
    out.brk(HARD_BREAK)
}
/// Appends texts to another.
pub(crate) fn push_all(text: &mut Text, parts: &[Text]) -> Result<(), NoMemory> {
    for part in parts {
        text.push_bytes(part.as_bytes())?;
    }
    Ok(())
}
