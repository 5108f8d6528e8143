//! Made by scripts/rust.sh from crates/lay_files/src/keep.rt, which is proved: change that.
//!
//! A sink that keeps what is written.
use crate::shims::Vec;
use crate::generated::lay_io::{Failed, Sink};
use crate::generated::lay_token::List;
use crate::shims::Global;
/// A sink that keeps what is written. If memory is out, a write keeps nothing and fails.
pub struct Keeper {
    bytes: Vec<u8>,
    faults: u64,
}
impl Keeper {
    /// An empty sink. It doesn't allocate.
    pub fn new(alloc: Global) -> Keeper {
        Keeper { bytes: Vec::new(alloc), faults: 0 }
    }
    /// Takes what was written.
    pub fn into_list(self) -> List<u8> {
        List::from_vec(self.bytes)
    }
}
impl Sink for Keeper {
    #[inline]
    fn write(&mut self, piece: &[u8]) -> Result<(), Failed> {
        if self.bytes.extend_from_slice(piece).is_err() {
            self.faults = self.faults.saturating_add(1);
            return Err(Failed);
        }
        Ok(())
    }
}
