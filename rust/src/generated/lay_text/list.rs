//! Made by scripts/rust.sh from crates/lay_text/src/list.rt, which is proved: change that.
//!
//! [`List`], a growable list of items.
use crate::shims::Vec;
use crate::shims::Global;
/// A list of items, kept in a `Vec`. Contracts see the items alone: neither the capacity nor the
/// address, so two lists with the same items are equal.
#[derive(Clone, PartialEq, Eq)]
pub struct List<T> {
    items: Vec<T>,
}
impl<T> List<T> {
    /// The empty list. It doesn't allocate.
    pub fn new(alloc: Global) -> List<T> {
        List { items: Vec::new(alloc) }
    }
    /// Appends an item. `Err` gives the item back if memory is out. The first push allocates room
    /// for one item only, since a tree has many lists of one item.
    pub fn push(&mut self, item: T) -> Result<(), T> {
        if self.items.is_empty() && self.items.reserve_exact(1).is_err() {
            return Err(item);
        }
        match self.items.push(item) {
            Ok(()) => Ok(()),
            Err(refused) => Err(refused.value),
        }
    }
    /// All items, as a slice.
    pub fn as_slice(&self) -> &[T] {
        self.items.as_slice()
    }
    /// All items, as a slice that can be changed.
    pub fn as_mut_slice(&mut self) -> &mut [T] {
        self.items.as_mut_slice()
    }
    /// Makes a list of a vector, with the same items.
    pub fn from_vec(items: Vec<T>) -> List<T> {
        List { items }
    }
    /// Gives the vector that holds the items.
    pub fn into_vec(self) -> Vec<T> {
        let List { items } = self;
        items
    }
}
