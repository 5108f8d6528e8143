//! Made by scripts/rust.sh from crates/lay_sample/src/counting/counter.rt, which is proved: change that.
//!
//! A sink that counts.
use crate::generated::lay_sample::counting::seen::Seen;
use crate::generated::lay_sample::counting::tally::Tally;
use crate::generated::lay_io::{Failed, Sink};
/// The counts of a text. A line ends at an LF, which doesn't belong to it. After the last LF there
/// is one more line, which is empty if the text ends there.
#[derive(Clone, Copy, Debug, PartialEq, Eq,)]
pub struct Counts {
    /// How many bytes there are.
    pub bytes: u64,
    /// How many of the bytes are LFs.
    pub lines: u64,
    /// The length of the longest line in bytes.
    pub longest: u64,
}
/// A sink that counts what is written and keeps nothing of it. It allocates nothing. If the count
/// of bytes would reach 2^64, a write fails; then it counts nothing, and the fault is counted.
pub struct Counter {
    tally: Tally,
    faults: u64,
    seen: Seen,
}
impl Counter {
    /// A counter to which nothing was written.
    pub fn new() -> Counter {
        Counter { tally: Tally::new(), faults: 0, seen: Seen::new() }
    }
    /// The counts of what was written.
    pub fn counts(&self) -> Counts {
        Counts {
            bytes: self.tally.bytes,
            lines: self.tally.lines,
            longest: self.tally.longest,
        }
    }
}
impl Sink for Counter {
    fn write(&mut self, piece: &[u8]) -> Result<(), Failed> {
        if !self.tally.has_room(piece.len()) {
            self.faults = self.faults.saturating_add(1);
            return Err(Failed);
        }
        self.tally.add(piece);
        self.seen = self.seen.and(piece);
        Ok(())
    }
}
