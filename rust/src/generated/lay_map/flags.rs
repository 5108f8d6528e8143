//! Made by scripts/rust.sh from crates/lay_map/src/flags.rt, which is proved: change that.
//!
//! A stack of flags.
use crate::shims::Vec;
use crate::generated::lay_text::NoMemory;
use crate::shims::Global;
/// A stack of flags. Contracts see it with the last one first.
pub(crate) struct Flags {
    items: Vec<bool>,
}
impl Flags {
    /// The empty stack. It doesn't allocate.
    pub(crate) fn new(alloc: Global) -> Flags {
        Flags { items: Vec::new(alloc) }
    }
    pub(crate) fn push(&mut self, flag: bool) -> Result<(), NoMemory> {
        match self.items.push(flag) {
            Ok(()) => Ok(()),
            Err(_) => Err(NoMemory),
        }
    }
    /// Pops the last flag, if there is one.
    pub(crate) fn pop(&mut self) {
        let _ = self.items.pop();
    }
    /// The last flag, or `false` if there is none.
    pub(crate) fn top(&self) -> bool {
        match self.items.last() {
            Some(flag) => *flag,
            None => false,
        }
    }
}
