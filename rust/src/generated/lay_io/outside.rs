//! Made by scripts/rust.sh from crates/lay_io/src/outside.rt, which is proved: change that.
//!
//! The traits of inputs and outputs.
use crate::generated::lay_text::Text;
/// Which input is read.
#[derive(Debug,)]
pub enum Which {
    /// Standard input.
    Stdin,
    /// The file of this name.
    File(Text),
}
/// A read or a write failed.
#[derive(Clone, Copy, Debug, PartialEq, Eq,)]
pub struct Failed;
/// Inputs, of which one is chosen and then read, piece by piece, to its end.
pub trait Inputs {
    /// Chooses the input that is read from now on. It may be called once. It allocates nothing.
    fn choose(&mut self, which: Which);
    /// Moves the next bytes of the chosen input to the beginning of the buffer, and gives their
    /// number: 0 only at the end of the input, or if the buffer is empty. `Failed` moves no byte,
    /// and is counted.
    fn read(&mut self, buf: &mut [u8]) -> Result<usize, Failed>;
}
/// An output: it takes bytes, piece by piece.
pub trait Sink {
    /// Appends the piece. `Failed` appends a prefix of it, and is counted.
    fn write(&mut self, piece: &[u8]) -> Result<(), Failed>;
}
