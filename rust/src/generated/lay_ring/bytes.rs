//! Made by scripts/rust.sh from crates/lay_ring/src/bytes.rt, which is proved: change that.
//!
//! A queue of bytes, in a buffer of one of two fixed lengths.
use crate::shims::Vec;
use crate::generated::lay_layout::MARGIN;
use crate::generated::lay_text::NoMemory;
use crate::shims::Global;
/// The length of the first buffer, in bytes.
const FIRST: usize = 128;
/// The length of the full buffer, in bytes.
const FULL: usize = 1024;
/// The greatest length of a text, in bytes: as many as a line has columns.
const LONGEST: usize = MARGIN as usize;
/// A queue of bytes: they are added at the back and taken from the front. Contracts see them as a
/// list, and whether the buffer is the full one.
pub struct Bytes {
    room: Vec<u8>,
    is_full: bool,
    /// The bytes are those with the indices from `first` up to `end`.
    first: usize,
    end: usize,
}
impl Bytes {
    /// An empty queue with the first buffer.
    pub fn new(alloc: Global) -> Result<Bytes, NoMemory> {
        match crate::shims::filled(alloc, 0u8, FIRST) {
            Ok(room) => Ok(Bytes { room, is_full: false, first: 0, end: 0 }),
            Err(_) => Err(NoMemory),
        }
    }
    /// Allocates the full buffer.
    #[inline(never)]
    pub fn grow(&mut self) -> Result<(), NoMemory> {
        match self.room.resize(FULL, 0) {
            Ok(()) => {
                self.is_full = true;
                Ok(())
            }
            Err(_) => Err(NoMemory),
        }
    }
    /// How many of `count` texts surely fit: all in the full buffer, and at most one in the first.
    #[inline(always)]
    pub fn room_for(&self, count: usize) -> usize {
        if self.is_full {
            return count;
        }
        if self.len() <= FIRST - LONGEST {
            return count.min(1);
        }
        0
    }
    /// Adds bytes at the back. There must be room for them.
    #[inline(always)]
    pub fn add(&mut self, more: &[u8]) {
        make_room(self.room.as_mut_slice(), &mut self.first, &mut self.end, more.len());
        put_at(self.room.as_mut_slice(), self.end, more);
        self.end += more.len();
    }
    /// How many bytes there are.
    #[inline(always)]
    pub fn len(&self) -> usize {
        self.end - self.first
    }
    /// The first `count` bytes.
    #[inline(always)]
    pub fn front(&self, count: usize) -> &[u8] {
        &self.room.as_slice()[self.first..self.first + count]
    }
    /// Drops the first `count` bytes.
    #[inline(always)]
    pub fn drop_front(&mut self, count: usize) {
        self.first += count;
        if self.first == self.end {
            self.first = 0;
            self.end = 0;
        }
    }
}
/// Moves the bytes to the beginning of the buffer, if the room after them is too small for `more`.
#[inline(always)]
fn make_room(room: &mut [u8], first: &mut usize, end: &mut usize, more: usize) {
    if more <= room.len() - *end {
        return;
    }
    turn(room, *first);
    *end -= *first;
    *first = 0;
}
/// Copies bytes into the buffer, from the index `place` on.
#[inline(always)]
fn put_at(room: &mut [u8], place: usize, more: &[u8]) {
    room[place..place + more.len()].copy_from_slice(more);
}
/// Moves the bytes from the index `place` on to the beginning of the buffer.
#[inline(never)]
fn turn(room: &mut [u8], place: usize) {
    room.rotate_left(place);
}
