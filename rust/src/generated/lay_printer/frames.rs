//! Made by scripts/rust.sh from crates/lay_printer/src/frames.rt, which is proved: change that.
//!
//! The stack of frames of the open groups, with spare room.
use crate::shims::Vec;
use crate::generated::lay_layout::{Frame, OUTSIDE};
use crate::generated::lay_text::NoMemory;
use crate::shims::Global;
/// The stack of frames of the open groups. Contracts see it with the innermost first.
pub struct Frames {
    items: Vec<Frame>,
}
impl Frames {
    /// The empty stack.
    pub fn new(alloc: Global) -> Frames {
        Frames { items: Vec::new(alloc) }
    }
    /// Pushes the frame of a group that begins. There must be room for it.
    pub fn push(&mut self, frame: Frame) {
        match self.items.push(frame) {
            Ok(()) => {}
            Err(_) => unreachable!(),
        }
    }
    /// Pops the frame of the innermost group, which ends.
    pub fn pop(&mut self) {
        let _ = self.items.pop();
    }
    /// The frame of the innermost group; outside all groups it is broken, inconsistent, with indent
    /// 0.
    pub fn top(&self) -> Frame {
        match self.items.last() {
            Some(frame) => *frame,
            None => OUTSIDE,
        }
    }
    /// How many more groups there is room for.
    pub fn spare(&self) -> usize {
        self.items.capacity() - self.items.len()
    }
    /// Makes room for `n` more groups.
    pub fn reserve(&mut self, n: usize) -> Result<(), NoMemory> {
        match self.items.reserve(n) {
            Ok(()) => Ok(()),
            Err(_) => Err(NoMemory),
        }
    }
}
