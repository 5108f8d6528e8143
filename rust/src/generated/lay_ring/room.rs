//! Made by scripts/rust.sh from crates/lay_ring/src/room.rt, which is proved: change that.
//!
//! Room in a circular buffer.
use crate::shims::HeapCircularBuffer;
use crate::generated::lay_text::NoMemory;
/// How many more items there is room for.
pub fn spare<T>(buffer: &HeapCircularBuffer<T>) -> usize {
    buffer.capacity() - buffer.len()
}
/// Makes room for `more` items.
#[inline(always)]
pub fn reserve<
    T,
>(buffer: &mut HeapCircularBuffer<T>, more: usize) -> Result<(), NoMemory> {
    if more <= spare(buffer) {
        return Ok(());
    }
    grow(buffer, more)
}
/// Makes room, at least twice as much as there was, so that items which are pushed one by one are
/// moved a bounded number of times each.
fn grow<T>(buffer: &mut HeapCircularBuffer<T>, more: usize) -> Result<(), NoMemory> {
    let wanted = match buffer.len().checked_add(more) {
        Some(wanted) => wanted,
        _ => {
            return Err(NoMemory);
        }
    };
    let doubled = buffer.capacity().saturating_mul(2);
    match buffer.resize(wanted.max(doubled).max(8)) {
        Ok(()) => Ok(()),
        Err(_) => Err(NoMemory),
    }
}
