//! Made by scripts/rust.sh from crates/lay_files/src/lib.rt, which is proved: change that.
//!
//! Parsing and formatting of whole files.
//!
//! [`read_bytes`] parses bytes to a file, or gives the syntax error and its place; [`read_within`]
//! does so with a depth limit. [`write_file`] writes the text of a file to a sink, [`text_of`]
//! gives it as a text, and [`enclosed_text_of`] gives the text of a constant whose value is an
//! expression with each part in parentheses. [`format_bytes`] formats bytes without a tree of the
//! whole file. [`refused_at`] gives the place of a syntax error to a caller who only kept the
//! bytes. Which bytes read to which file, and what the text of a file is, is defined in `lay_code`.
pub mod keep;
mod laid;
pub mod reading;
pub mod streamed;
mod through;
pub mod windows;
mod writing;
pub use keep::Keeper;
pub use reading::{DEPTH, FileError, read_bytes, read_within, refused_at};
pub use through::format_bytes;
pub use writing::{enclosed_text_of, text_of, write_file};
