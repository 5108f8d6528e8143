//! Made by scripts/rust.sh from crates/lay_io/src/read.rt, which is proved: change that.
//!
//! Reading an input to its end.
use crate::shims::Vec;
use crate::generated::lay_io::outside::{Failed, Inputs};
use crate::generated::lay_text::List;
use crate::shims::Global;
/// Why an input was not read to its end.
#[derive(Clone, Copy, Debug, PartialEq, Eq,)]
pub enum ReadError {
    /// A read failed.
    ReadFailed,
    /// The input holds more bytes than the limit.
    TooLong,
    /// Memory could not be allocated.
    NoMemory,
}
/// Reads the chosen input to its end, if it holds at most `limit` bytes. Each read but the last
/// gives at least one byte, so there are at most `limit + 1` reads.
pub fn read_all<
    I: Inputs,
>(alloc: Global, inputs: &mut I, limit: usize) -> Result<List<u8>, ReadError> {
    let mut bytes = Vec::new(alloc);
    let mut buf = [0u8; 16384];
    for turn in 0..limit + 1 {
        let count = match inputs.read(&mut buf) {
            Ok(count) => count,
            Err(Failed) => return Err(ReadError::ReadFailed),
        };
        if count == 0 {
            return Ok(List::from_vec(bytes));
        }
        if count > limit - bytes.len() {
            return Err(ReadError::TooLong);
        }
        if bytes.extend_from_slice(&buf[..count]).is_err() {
            return Err(ReadError::NoMemory);
        }
    }
    unreachable!()
}
