//! Lays out Rust source that no person laid out: generated bindings, expanded macros, the output of build scripts.
//!
//! ```
//! assert_eq!(froesaffron::format("struct A{a:u8,}").unwrap(), "struct A {\n    a: u8,\n}\n");
//! let error = froesaffron::format("fn f(").unwrap_err();
//! assert_eq!(error.to_string(), "1:5: unbalanced delimiter");
//! ```
//!
//! Nothing is configured, and nothing is guessed: a source that isn't read is refused with its place. Plain comments are
//! dropped and documentation is kept. What is laid out reads to the same tree, and is laid out again to itself.
//!
//! A build script goes on with the text as it is where it is refused:
//!
//! ```
//! let generated = "pub fn f(){}".to_string();
//! let text = froesaffron::format(&generated).unwrap_or_else(|error| {
//!     println!("cargo:warning=generated.rs:{error}");
//!     generated
//! });
//! assert_eq!(text, "pub fn f() {}\n");
//! ```
//!
//! A generator that writes no text builds a file by the calls of [`build`], or puts a tree together of the types of [`tree`], and prints it
//! with [`unparse`]. [`parenthesize`] gives an expression of such a tree the parentheses that it lacks.
//!
//! # What is trusted
//!
//! The module `generated` is translated by a program from sources that are proved, which leaves
//! their contracts out. It isn't proved itself: here that program and a Rust compiler are trusted,
//! and so is what is written by hand, above all the module `shims`. The texts, refusals and maps
//! that it gives are compared with those of the proved command, byte for byte, whenever the
//! repository is tested: of this crate's own sources and tests, and of 1,000 sources that are drawn
//! from them with small changes.
//!
//! # Stack
//!
//! With the feature `std`, which is on by default, each call that reads a source, prints a tree or
//! goes through one runs on a thread of its own with 16 MiB of stack, so a caller's thread may have
//! as little as it likes. The calls of [`build`], which go through none, have the caller's stack,
//! and so have clones and comparisons of trees, and without the feature all calls. Of the kinds of
//! nesting that were measured, each at its deepest, the greatest takes 0.6 MiB where the crate is
//! optimised, and 2.7 where it isn't (in [`is_loose`] 0.8 and 2.9): more than the 2 MiB of a thread
//! that Rust makes.
//!
//! # Speed
//!
//! An unoptimised crate is ten times as slow. `[profile.dev.package.froesaffron]` with `opt-level = 3`, or
//! `[profile.dev.build-override]` for build scripts, optimises it in a build that isn't.
#![no_std]
#![forbid(unsafe_code)]

extern crate alloc;
#[cfg(feature = "std")]
extern crate std;

pub mod build;
mod calls;
mod error;
mod furthest;
#[allow(dead_code, unused_imports, unused_labels, unused_variables, clippy::all)]
#[rustfmt::skip]
mod generated;
mod items;
mod map;
mod shims;
mod stack;
pub mod tree;

pub use calls::{check, format, format_bytes, is_loose, parenthesize, read, unparse};
pub use error::{Cause, Error, Position};
pub use items::{EditError, Items};
pub use map::{Map, Pair, map};

/// What the command is made of. It isn't part of what a version of the crate promises.
#[doc(hidden)]
pub mod command {
    pub use crate::generated::lay_front::{Status, run};
    pub use crate::generated::lay_io::{Failed, Inputs, Sink, Which};
    pub use crate::generated::lay_text::{NoMemory, Text};
    pub use crate::shims::Global;
    #[cfg(feature = "std")]
    pub use crate::stack::with_stack;
}
