//! Made by scripts/rust.sh from crates/lay_ring/src/ring.rt, which is proved: change that.
//!
//! A queue of numbered entries.
use crate::generated::lay_ring::entry::{Entry, Size};
use crate::generated::lay_ring::room;
use crate::shims::HeapCircularBuffer;
use crate::generated::lay_text::NoMemory;
use crate::shims::Global;
/// A queue of entries, the number of the first one, and how many more there is room for. The number
/// of each entry is one more than that of the entry before it, modulo 2^64. After `NoMemory` the
/// ring is as it was.
pub struct Ring {
    buffer: HeapCircularBuffer<Entry>,
    first: u64,
}
impl Ring {
    /// An empty ring with room for `room` entries. The first one will have the number 0.
    pub fn new(alloc: Global, room: usize) -> Result<Ring, NoMemory> {
        match HeapCircularBuffer::with_capacity(alloc, room) {
            Ok(buffer) => Ok(Ring { buffer, first: 0 }),
            Err(_) => Err(NoMemory),
        }
    }
    /// Adds an entry at the back and gives its number. `Err` gives the entry back if memory is out.
    pub fn push(&mut self, entry: Entry) -> Result<u64, Entry> {
        if room::reserve(&mut self.buffer, 1).is_err() {
            return Err(entry);
        }
        let number = self.first.wrapping_add(self.buffer.len() as u64);
        match self.buffer.try_push_back(entry) {
            Ok(()) => Ok(number),
            Err(entry) => Err(entry),
        }
    }
    /// Sets the size of the entry with this number, which must be in the ring with an unknown size.
    /// The new size is known.
    pub fn size_at(&mut self, number: u64, size: Size) {
        let place = number.wrapping_sub(self.first) as usize;
        if let Some(entry) = self.buffer.get_mut(place) {
            entry.size = size;
        }
    }
    /// The first entry.
    pub fn front(&self) -> Option<&Entry> {
        self.buffer.front()
    }
    /// Takes the first entry. The number of the first one is then one more.
    pub fn pop_front(&mut self) -> Option<Entry> {
        let entry = self.buffer.pop_front()?;
        self.first = self.first.wrapping_add(1);
        Some(entry)
    }
    /// Skips a number, for an entry that isn't kept. The ring must be empty.
    #[inline(always)]
    pub fn pass(&mut self) {
        self.first = self.first.wrapping_add(1);
    }
    /// The number of the first entry, or of the next one that is pushed if there is none.
    pub fn first(&self) -> u64 {
        self.first
    }
    /// How many entries there are.
    pub fn len(&self) -> usize {
        self.buffer.len()
    }
    /// Makes room for `n` more entries.
    pub fn reserve(&mut self, n: usize) -> Result<(), NoMemory> {
        room::reserve(&mut self.buffer, n)
    }
    /// How many more entries there is room for.
    pub fn spare(&self) -> usize {
        room::spare(&self.buffer)
    }
}
