//! Made by scripts/rust.sh from crates/lay_read_tokens/src/stop.rt, which is proved: change that.
//!
//! Why a reader reads nothing.
use crate::shims::Vec;
use crate::generated::lay_node::Boxed;
use crate::generated::lay_token::{List, NoMemory, Text};
use crate::shims::Global;
/// Why nothing was read.
#[derive(Clone, Copy, Debug,)]
pub enum ReadNone {
    /// The tokens ahead spell no such node.
    NoReading,
    /// Memory could not be allocated. It says nothing about the tokens.
    NoMemory,
}
/// An empty list with a capacity of `count` items.
pub fn room_for<T>(alloc: Global, count: usize) -> Result<List<T>, ReadNone> {
    match Vec::with_capacity(alloc, count) {
        Ok(items) => Ok(List::from_vec(items)),
        Err(_) => Err(ReadNone::NoMemory),
    }
}
/// Appends an item.
pub fn keep<T>(list: &mut List<T>, item: T) -> Result<(), ReadNone> {
    match list.push(item) {
        Ok(()) => Ok(()),
        Err(_) => Err(ReadNone::NoMemory),
    }
}
/// Boxes the value.
pub fn boxed<T>(alloc: Global, value: T) -> Result<Boxed<T>, ReadNone> {
    match Boxed::new(alloc, value) {
        Ok(boxed) => Ok(boxed),
        Err(NoMemory) => Err(ReadNone::NoMemory),
    }
}
/// A copy of the text.
#[inline(always)]
pub fn copy_of(alloc: Global, text: &Text) -> Result<Text, ReadNone> {
    match Text::from_bytes(alloc, text.as_bytes()) {
        Ok(copy) => Ok(copy),
        Err(NoMemory) => Err(ReadNone::NoMemory),
    }
}
