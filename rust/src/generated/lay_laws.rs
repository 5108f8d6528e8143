//! Made by scripts/rust.sh from crates/lay_laws/src/lib.rt, which is proved: change that.
//!
//! Which trees can be written as files, and the theorems about these files.
//!
//! The theorems of `lay_reparse` are exported again: the text of a file parses back to the file,
//! and to no other. So is the theorem of `lay_code` that tokens spell at most one file. They
//! justify [`is_written`], which decides whether a tree that a program has built can be written at
//! all: the tree is laid out, parsed, and compared with what was parsed. [`is_loose`] decides
//! whether an expression lacks nothing but parentheses.
mod layouts;
mod loose;
mod written;
pub use loose::is_loose;
pub use written::is_written;
