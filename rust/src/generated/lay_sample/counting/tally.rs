//! Made by scripts/rust.sh from crates/lay_sample/src/counting/tally.rt, which is proved: change that.
//!
//! The counts of a text that grows.
/// The counts of a text, and how long its last line is so far.
#[derive(Debug,)]
pub(crate) struct Tally {
    pub bytes: u64,
    pub lines: u64,
    pub longest: u64,
    pub last: u64,
}
impl Tally {
    /// The counts of the empty text.
    pub(crate) fn new() -> Tally {
        Tally { bytes: 0, lines: 0, longest: 0, last: 0 }
    }
    /// Whether this many more bytes can be counted.
    pub(crate) fn has_room(&self, bytes: usize) -> bool {
        bytes as u64 <= u64::MAX - self.bytes
    }
    /// Counts a piece that follows the text.
    pub(crate) fn add(&mut self, piece: &[u8]) {
        for byte in piece {
            self.push(*byte);
        }
    }
    /// Counts a byte that follows the text.
    fn push(&mut self, byte: u8) {
        self.bytes += 1;
        if byte == b'\n' {
            self.lines += 1;
            self.last = 0;
        } else {
            self.last += 1;
            self.longest = self.longest.max(self.last);
        }
    }
}
