//! Made by scripts/rust.sh from crates/lay_items/src/lists.rt, which is proved: change that.
//!
//! Insertion and removal of list items.
use crate::generated::lay_text::{List, NoMemory};
use crate::shims::Global;
use core::mem;
/// Inserts an item, so that it has this index. If memory is out, the list stays as it was.
pub(crate) fn insert_at<
    T,
>(alloc: Global, list: &mut List<T>, index: usize, item: T) -> Result<(), NoMemory> {
    let mut all = mem::replace(list, List::new(alloc)).into_vec();
    let answer = match all.insert(index, item) {
        Ok(()) => Ok(()),
        Err(_) => Err(NoMemory),
    };
    *list = List::from_vec(all);
    answer
}
/// Removes the item with this index.
pub(crate) fn remove_at<T>(alloc: Global, list: &mut List<T>, index: usize) {
    let mut all = mem::replace(list, List::new(alloc)).into_vec();
    let _gone = all.remove(index);
    *list = List::from_vec(all);
}
/// Inserts an item into each of two lists, at the same index. If memory is out, both stay as they
/// were.
pub(crate) fn insert_both<
    A,
    B,
>(
    alloc: Global,
    ones: &mut List<A>,
    others: &mut List<B>,
    index: usize,
    one: A,
    other: B,
) -> Result<(), NoMemory> {
    insert_at(alloc, others, index, other)?;
    match insert_at(alloc, ones, index, one) {
        Ok(()) => Ok(()),
        Err(NoMemory) => {
            remove_at(alloc, others, index);
            Err(NoMemory)
        }
    }
}
/// Removes the item with this index from each of two lists.
pub(crate) fn remove_both<
    A,
    B,
>(alloc: Global, ones: &mut List<A>, others: &mut List<B>, index: usize) {
    remove_at(alloc, ones, index);
    remove_at(alloc, others, index);
}
/// Replaces the item with this index. It doesn't allocate.
pub(crate) fn replace_at<T>(alloc: Global, list: &mut List<T>, index: usize, item: T) {
    let mut all = mem::replace(list, List::new(alloc)).into_vec();
    all[index] = item;
    *list = List::from_vec(all);
}
/// Replaces the item with this index in each of two lists.
pub(crate) fn replace_both<
    A,
    B,
>(
    alloc: Global,
    ones: &mut List<A>,
    others: &mut List<B>,
    index: usize,
    one: A,
    other: B,
) {
    replace_at(alloc, ones, index, one);
    replace_at(alloc, others, index, other);
}
