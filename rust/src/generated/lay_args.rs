//! Made by scripts/rust.sh from crates/lay_args/src/lib.rt, which is proved: change that.
//!
//! The command line: from words to what they ask for.
//!
//! [`line`] parses the words as a [`Line`]: an input to format, an input to check, an input to map,
//! a sample to write, or a usage error. It uses `clap`, which defines which words fit a command
//! with two flags, two options and one file. The crate proves that the line is the one that
//! `specs/` defines over `clap`'s own definitions: `Command` states the command, `Number` which
//! numbers are accepted, `Line` what the words mean. It reads no input and writes nothing.
mod command;
mod lines;
mod numbers;
mod texts;
mod words;
pub use lines::Line;
pub use words::line;
