//! Made by scripts/rust.sh from crates/lay_sample/src/lib.rt, which is proved: change that.
//!
//! Samples: unformatted Rust source, drawn from a seed.
//!
//! [`sample`] gives a text with the given number of items, one on each line: structs, imports,
//! functions and constants, without any blank that the grammar doesn't require. The crate proves
//! that the text is the one that `specs/Sample` defines, so a seed and a number of items give the
//! same bytes everywhere. Digits of numbers come from `itoa`.
pub mod counting;
mod draws;
mod items;
mod samples;
pub use samples::sample;
