//! Made by scripts/rust.sh from crates/lay_same_nodes/src/lists.rt, which is proved: change that.
//!
//! The trait of nodes that can be compared, and lists and options of them.
use crate::generated::lay_node::Boxed;
use crate::generated::lay_token::{List, Text};
/// A node, or a part of one, that can be compared with another of its type.
pub trait Same {
    /// Whether the two are equal.
    fn same(&self, other: &Self) -> bool;
}
impl<T: Same> Same for Option<T> {
    fn same(&self, other: &Option<T>) -> bool {
        match self {
            None => other.is_none(),
            Some(value) => matches!(other, Some(given) if value.same(given)),
        }
    }
}
impl<T: Same> Same for Boxed<T> {
    fn same(&self, other: &Boxed<T>) -> bool {
        self.get().same(other.get())
    }
}
impl<T: Same> Same for List<T> {
    fn same(&self, other: &List<T>) -> bool {
        same_items(self.as_slice(), other.as_slice())
    }
}
impl Same for Text {
    fn same(&self, other: &Text) -> bool {
        self.as_bytes() == other.as_bytes()
    }
}
/// Whether two lists of items are equal.
pub(crate) fn same_items<T: Same>(items: &[T], others: &[T]) -> bool {
    if items.len() != others.len() {
        return false;
    }
    for (item, other) in items.iter().zip(others) {
        if !item.same(other) {
            return false;
        }
    }
    true
}
