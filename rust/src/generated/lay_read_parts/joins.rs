//! Made by scripts/rust.sh from crates/lay_read_parts/src/joins.rt, which is proved: change that.
//!
//! Helpers that combine results of readers.
use crate::generated::lay_read_tokens::ReadNone;
use crate::generated::lay_token::List;
/// The pair of a value and of a second result, if that is `Ok`.
pub fn both<A, B>(first: A, second: Result<B, ReadNone>) -> Result<(A, B), ReadNone> {
    match second {
        Ok(second) => Ok((first, second)),
        Err(none) => Err(none),
    }
}
/// The error `NoReading`; the argument is dropped.
pub fn refused<A, B>(_before: A) -> Result<B, ReadNone> {
    Err(ReadNone::NoReading)
}
/// `None`; the argument is dropped.
pub fn none_of<A, B>(_other: A) -> Option<B> {
    None
}
/// A list that begins with `first` and goes on with `others`.
pub fn prepended<T>(first: T, others: List<T>) -> Result<List<T>, ReadNone> {
    let mut items = others.into_vec();
    match items.insert(0, first) {
        Ok(()) => Ok(List::from_vec(items)),
        Err(_) => Err(ReadNone::NoMemory),
    }
}
