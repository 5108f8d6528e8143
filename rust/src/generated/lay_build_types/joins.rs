//! Made by scripts/rust.sh from crates/lay_build_types/src/joins.rt, which is proved: change that.
//!
//! Helpers of the builder. If memory is out, the arguments are dropped.
use crate::generated::lay_build_types::built::BuildError;
use crate::generated::lay_code::Boxed;
use crate::generated::lay_text::{List, NoMemory};
use crate::shims::Global;
/// The pair of two parts, or the error of the first that failed.
pub fn both<
    A,
    B,
>(
    first: Result<A, BuildError>,
    second: Result<B, BuildError>,
) -> Result<(A, B), BuildError> {
    match first {
        Ok(first) => {
            match second {
                Ok(second) => Ok((first, second)),
                Err(why) => Err(why),
            }
        }
        Err(why) => Err(why),
    }
}
/// Boxes a node.
pub fn boxed<T>(alloc: Global, node: T) -> Result<Boxed<T>, BuildError> {
    match Boxed::new(alloc, node) {
        Ok(boxed) => Ok(boxed),
        Err(NoMemory) => Err(BuildError::NoMemory),
    }
}
/// Appends an item to a list.
pub fn keep<T>(list: &mut List<T>, item: T) -> Result<(), BuildError> {
    match list.push(item) {
        Ok(()) => Ok(()),
        Err(_) => Err(BuildError::NoMemory),
    }
}
/// A list of one item.
pub fn one<T>(alloc: Global, item: T) -> Result<List<T>, BuildError> {
    let mut list = List::new(alloc);
    keep(&mut list, item)?;
    Ok(list)
}
