//! Made by scripts/rust.sh from crates/lay_node/src/boxed.rt, which is proved: change that.
//!
//! Boxes, so that a node can hold nodes of its own type.
use crate::shims::Box;
use crate::generated::lay_token::NoMemory;
use crate::shims::Global;
/// A box that contracts see as its value: two boxes of equal values are equal.
#[derive(Clone, PartialEq, Eq)]
pub struct Boxed<T> {
    inner: Box<T>,
}
impl<T> Boxed<T> {
    /// The value.
    pub fn get(&self) -> &T {
        &self.inner
    }
    /// The value, to be changed.
    pub fn get_mut(&mut self) -> &mut T {
        &mut self.inner
    }
    /// Takes the value out; the box is freed.
    pub fn into_inner(self) -> T {
        let Boxed { inner } = self;
        Box::into_inner(inner)
    }
}
impl<T> Boxed<T> {
    /// Boxes the value. `Err` if memory is out; then the value is dropped.
    pub fn new(alloc: Global, value: T) -> Result<Boxed<T>, NoMemory> {
        Ok(Boxed { inner: Box::new(alloc, value)? })
    }
}
