//! The tests of files that are built by calls.
//!
//! `rows` holds what each call makes, printed, and why it refuses, and `levels` how deep nodes may be.

mod levels;
mod parts;
mod rows;
