//! Made by scripts/rust.sh from crates/lay_files/src/windows.rt, which is proved: change that.
//!
//! From a text to the tree of its file, window by window, so that not all tokens are in memory at
//! once.
//!
//! [`read_source`] lexes some tokens, up to where an item may end, reads the items that they spell,
//! and goes on after them. A module in a file is read as the file is, from after its opening brace
//! to its closing one, so a module may be larger than a window too. What is read so is spelled by
//! the tokens of the whole text. If a window isn't whole items, and perhaps the head of a module,
//! nothing is read; that says nothing about the text.
mod bodies;
pub mod heads;
mod parts;
pub mod window;
pub use bodies::read_source;
