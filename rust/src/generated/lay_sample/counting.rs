//! Made by scripts/rust.sh from crates/lay_sample/src/counting.rt, which is proved: change that.
//!
//! A sink that counts bytes and lines, and keeps nothing of what is written.
//!
//! The crate proves that the counts of a [`Counter`] are those of the text that was written to it,
//! whoever wrote it: code that is generic over a `Sink` says by what text the sink grew.
//!
//! What was written is not in memory. It is a ghost field of a struct without any bytes, in `seen`,
//! since the contract of a `Sink` speaks of it. The two functions that make such a struct are
//! proved by hand, because no generated proof covers a struct with ghost data. Everything else is
//! proved as everywhere.
pub mod counter;
mod seen;
mod tally;
pub use counter::{Counter, Counts};
