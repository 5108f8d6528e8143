//! Made by scripts/rust.sh from crates/lay_files/src/streamed.rt, which is proved: change that.
//!
//! From a text to the layout of its file, window by window: the items in a window are read, laid
//! out and dropped before the next window is lexed, so there is never a tree of the whole file in
//! memory.
//!
//! [`put_source`] reads as `windows::read_source` does, and treats the body of a module as it
//! treats the file. If it gives `Ok`, the stream of the file was emitted. Otherwise what was
//! emitted says nothing about the text, so it is for callers that keep the text of the layout until
//! all of it was read.
mod bodies;
mod lines;
mod modules;
mod parts;
mod stop;
pub use bodies::put_source;
pub use stop::{NotPut, told};
