//! Made by scripts/rust.sh from crates/lay_front/src/lib.rt, which is proved: change that.
//!
//! The command and the top functions of the formatter.
//!
//! [`run`] is the command. It reads an input of at most 16 MiB, parses it to the one tree that it
//! spells, and writes the formatted text of the tree; or it refuses the input and writes nothing.
//! [`format`] and [`format_into`] format bytes, and [`unparse`] gives the text of a tree. Which
//! bytes read to which file, and what the text of a file is, is defined in `lay_code`; `specs/`
//! says what each status means (`Outcome`).
pub mod command;
mod compare;
pub mod formatting;
mod messages;
mod samples;
mod stop;
pub use command::{LIMIT, Status, run};
pub use formatting::{IntoError, format, format_into, unparse};
pub use messages::tell_failed_write;
