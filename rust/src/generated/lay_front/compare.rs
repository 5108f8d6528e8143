//! Made by scripts/rust.sh from crates/lay_front/src/compare.rt, which is proved: change that.
//!
//! Comparison of the text of a file with bytes.
use crate::generated::lay_code::File;
use crate::generated::lay_files::write_file;
use crate::generated::lay_io::{Failed, Sink};
use crate::generated::lay_printer::PrintError;
use crate::generated::lay_token::{List, NoMemory};
use crate::shims::Global;
/// Whether the text of a file is these bytes. The text isn't kept: it is compared as it is made,
/// and only made up to the first byte that differs.
pub fn is_text(alloc: Global, file: &File, bytes: List<u8>) -> Result<bool, NoMemory> {
    let mut comparer = Comparer::new(bytes);
    match write_file(alloc, file, &mut comparer) {
        Ok(()) => Ok(comparer.has_met_all()),
        Err(PrintError::WriteFailed) => Ok(false),
        Err(PrintError::NoMemory) => Err(NoMemory),
    }
}
/// A sink that compares what is written with the expected bytes, and keeps nothing of it but the
/// first byte that is wrong. That write fails, and so does each later one.
struct Comparer {
    expected: List<u8>,
    /// How many of the expected bytes were written.
    met: usize,
    /// The first wrong byte, which was written after those.
    wrong: Option<u8>,
    faults: u64,
}
impl Comparer {
    /// A comparer to which nothing was written. It doesn't allocate.
    fn new(expected: List<u8>) -> Comparer {
        Comparer { expected, met: 0, wrong: None, faults: 0 }
    }
    /// Whether exactly the expected bytes were written.
    fn has_met_all(&self) -> bool {
        match self.wrong {
            None => self.met == self.expected.as_slice().len(),
            Some(_) => false,
        }
    }
}
impl Sink for Comparer {
    fn write(&mut self, piece: &[u8]) -> Result<(), Failed> {
        if self.wrong.is_some() {
            self.faults = self.faults.saturating_add(1);
            return Err(Failed);
        }
        let same = same_front(piece, &self.expected.as_slice()[self.met..]);
        if same == piece.len() {
            self.met += same;
            return Ok(());
        }
        self.met += same;
        self.wrong = Some(piece[same]);
        self.faults = self.faults.saturating_add(1);
        Err(Failed)
    }
}
/// The length of the common prefix of a piece and the expected bytes.
fn same_front(piece: &[u8], expected: &[u8]) -> usize {
    for number in 0..piece.len().min(expected.len()) {
        if piece[number] != expected[number] {
            return number;
        }
    }
    piece.len().min(expected.len())
}
