//! Made by scripts/rust.sh from crates/lay_lex/src/lib.rt, which is proved: change that.
//!
//! Lexing: from bytes to tokens.
//!
//! [`normalise`] makes of an input the text that is lexed: without a byte order mark, with one LF
//! for each CR LF, and with the shebang line set apart. [`lex`] gives the tokens. Both are proved
//! equal to the definitions in `lay_token`: they succeed exactly if the definitions give a result,
//! and then with that result.
mod border;
mod ends;
mod gap;
mod lexer;
pub mod one_by_one;
mod source;
mod tokens;
mod window;
pub use gap::after_gap;
pub use lexer::{cut, lex, lex_window};
pub use source::{Source, normalise};
pub use tokens::{Before, is_point, text_of_piece};
pub use window::{Stop, Window};
