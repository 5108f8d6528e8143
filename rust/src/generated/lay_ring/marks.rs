//! Made by scripts/rust.sh from crates/lay_ring/src/marks.rt, which is proved: change that.
//!
//! A list of items that is open at both ends.
use crate::shims::Vec;
use crate::generated::lay_text::NoMemory;
use crate::shims::Global;
/// For how many items room is made at once, so that the waiting ones are seldom moved.
const FEW: usize = 256;
/// A list of items, the oldest first, and how many more there is room for. After `NoMemory` it is
/// as it was.
pub struct Marks<T> {
    /// The items are those from the index `first` on; those before were taken.
    kept: Vec<T>,
    first: usize,
}
impl<T: Copy> Marks<T> {
    /// An empty list with room for `room` items.
    pub fn new(alloc: Global, room: usize) -> Result<Marks<T>, NoMemory> {
        match Vec::with_capacity(alloc, room) {
            Ok(kept) => Ok(Marks { kept, first: 0 }),
            Err(_) => Err(NoMemory),
        }
    }
    /// Adds an item as the newest.
    #[inline(always)]
    pub fn push(&mut self, item: T) -> Result<(), NoMemory> {
        self.reserve(1)?;
        self.add(item);
        Ok(())
    }
    /// Adds an item as the newest. There must be room.
    #[inline(always)]
    pub fn add(&mut self, item: T) {
        self.kept.push_reserved(item);
    }
    /// Takes the newest item.
    #[inline(always)]
    pub fn pop(&mut self) -> Option<T> {
        if self.kept.len() == self.first {
            return None;
        }
        Some(self.kept.take_last())
    }
    /// Takes the oldest item.
    #[inline(always)]
    pub fn pop_oldest(&mut self) -> Option<T> {
        let oldest = self.get(0)?;
        self.drop_oldest(1);
        Some(oldest)
    }
    /// Drops the `count` oldest items.
    #[inline(always)]
    pub fn drop_oldest(&mut self, count: usize) {
        self.first += count;
        if self.first == self.kept.len() {
            self.kept.clear();
            self.first = 0;
        }
    }
    /// The newest item.
    #[inline(always)]
    pub fn last(&self) -> Option<T> {
        if self.kept.len() == self.first {
            return None;
        }
        Some(self.kept[self.kept.len() - 1])
    }
    /// The item with this index, counted from the oldest.
    #[inline(always)]
    pub fn get(&self, place: usize) -> Option<T> {
        if place >= self.kept.len() - self.first {
            return None;
        }
        Some(self.kept[self.first + place])
    }
    /// Replaces the item with this index.
    #[inline(always)]
    pub fn set(&mut self, place: usize, item: T) {
        self.kept[self.first + place] = item;
    }
    /// How many items there are.
    #[inline(always)]
    pub fn len(&self) -> usize {
        self.kept.len() - self.first
    }
    /// Makes room for `n` more items.
    #[inline(always)]
    pub fn reserve(&mut self, n: usize) -> Result<(), NoMemory> {
        if n <= self.kept.capacity() - self.kept.len() {
            return Ok(());
        }
        self.grow(n)
    }
    /// Makes room for `n` more items: it reuses the room of the items that were taken, if they are
    /// half of all and that is enough; otherwise it allocates for at least [`FEW`] items.
    #[inline(never)]
    fn grow(&mut self, n: usize) -> Result<(), NoMemory> {
        let held = self.kept.len() - self.first;
        if held <= self.first && n <= self.kept.capacity() - held {
            self.kept.rotate_left(self.first);
            self.kept.truncate(held);
            self.first = 0;
            return Ok(());
        }
        match self.kept.reserve(n.max(FEW)) {
            Ok(()) => Ok(()),
            Err(_) => Err(NoMemory),
        }
    }
    /// How many more items there is room for.
    #[inline(always)]
    pub fn spare(&self) -> usize {
        self.kept.capacity() - self.kept.len()
    }
}
