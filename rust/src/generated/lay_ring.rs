//! Made by scripts/rust.sh from crates/lay_ring/src/lib.rt, which is proved: change that.
//!
//! The queue of entries that wait in a printer.
//!
//! A [`Row`] is a queue of entries. Each entry is a token and its size. When it is pushed it gets a
//! number, which it keeps. So its size can be written back by [`Row::size_at`] once it is known,
//! wherever the entry is by then. Numbers count modulo 2^64. An entry is small. The texts of all
//! entries are in one buffer of bytes, which is small at first and then has a fixed length: a
//! waiting text is copied into that buffer, so it never allocates. [`Marks`] is a list of small
//! items that is open at both ends: a row keeps its entries in one, and a printer its notes of what
//! has no size yet.
//!
//! A [`Ring`] is the same queue for tokens that own their texts, of whatever length. It is built on
//! a circular buffer.
//!
//! A call takes a bounded number of steps, except that a call which makes room moves everything.
//! Room is at least doubled each time, or half of it is free, so over many calls the number of
//! steps is bounded too. Only `new`, `push` and `reserve` allocate, and only if there is no room.
mod bytes;
pub mod entry;
pub mod marks;
pub mod ring;
mod room;
pub mod row;
pub use entry::{Entry, Size};
pub use marks::Marks;
pub use ring::Ring;
pub use row::{LentEntry, LentTok, Row, Texts, UNKNOWN};
