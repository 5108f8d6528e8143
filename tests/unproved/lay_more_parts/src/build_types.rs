//! The tests of names and types that are built, and of what the calls of all nodes share.
//!
//! `rows` holds what calls make, printed, and why they refuse, and `shares` what is put together.

mod parts;
mod rows;
mod shares;
