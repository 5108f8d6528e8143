//! Made by scripts/rust.sh from crates/lay_queue/src/close.rt, which is proved: change that.
//!
//! Sizes that become known at a break.
use crate::generated::lay_layout::GREATEST_WIDTH;
use crate::generated::lay_ring::{Marks, Row};
/// The greatest size that is kept, in columns.
pub const CAP: u64 = GREATEST_WIDTH;
/// A note of an entry whose size is still unknown.
#[derive(Clone, Copy,)]
pub struct Note {
    /// The entry's number in the row.
    pub number: u64,
    /// How many groups are open before the entry.
    pub level: u64,
    /// The width from the note before to this one, at most [`CAP`]. Widths between neighbours are
    /// kept, since a running total could overflow.
    pub delta: u64,
}
/// Takes the newest note, if it was made with at least `cur` groups open.
fn take_newest(notes: &mut Marks<Note>, cur: u64) -> Option<Note> {
    let newest = match notes.last() {
        Some(note) => note,
        None => return None,
    };
    if newest.level < cur {
        return None;
    }
    notes.pop()
}
/// Sets the sizes of the newest entries, whose measured widths end at a break inside `cur` groups,
/// and drops their notes. `width` is the width from the newest note on; so is the result.
pub fn close(ring: &mut Row, notes: &mut Marks<Note>, width: u64, cur: u64) -> u64 {
    let mut acc = width;
    while let Some(note) = take_newest(notes, cur) {
        ring.size_at(note.number, acc);
        acc = acc.saturating_add(note.delta).min(CAP);
    }
    acc
}
