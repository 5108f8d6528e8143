//! Made by scripts/rust.sh from crates/lay_files/src/windows/window.rt, which is proved: change that.
//!
//! A window of tokens, nested.
use crate::generated::lay_lex::{Stop, lex_window};
use crate::generated::lay_nest::{Nested, nest};
use crate::generated::lay_read_tokens::ReadNone;
use crate::generated::lay_token::{Delim, FormatError, Kind, List, Token};
use crate::shims::Global;
/// The least number of tokens in a window, if an item ends after them.
const LEAST: usize = 4096;
/// Consecutive tokens of a text, with balanced delimiters.
pub struct Window {
    /// The tokens, without a brace of a module that ends the window.
    pub nested: Nested,
    pub stop: Stop,
    /// The byte offset where the text goes on, after that brace.
    pub end: usize,
}
/// Lexes the window that begins at this byte offset.
pub fn read_window(alloc: Global, text: &str, place: usize) -> Result<Window, ReadNone> {
    let window = match lex_window(alloc, text, place, LEAST) {
        Ok(window) => window,
        Err(error) => return Err(unread(error)),
    };
    let (stop, end) = (window.stop, window.end);
    let tokens = without_brace(window.tokens, stop)?;
    match nest(alloc, tokens) {
        Ok(nested) => Ok(Window { nested, stop, end }),
        Err(error) => Err(unread(error)),
    }
}
/// The tokens without the brace of a module that ends the window, if one does.
fn without_brace(tokens: List<Token>, stop: Stop) -> Result<List<Token>, ReadNone> {
    match stop {
        Stop::End | Stop::More => Ok(tokens),
        Stop::Opened | Stop::Closed => {
            let mut tokens = tokens.into_vec();
            match tokens.pop() {
                Some(brace) if is_brace(&brace, stop) => Ok(List::from_vec(tokens)),
                _ => Err(ReadNone::NoReading),
            }
        }
    }
}
/// Whether the token is the brace that ends a window that stops so.
fn is_brace(token: &Token, stop: Stop) -> bool {
    match (stop, token.kind) {
        (Stop::Opened, Kind::Opener(Delim::Brace)) => {
            token.text.as_bytes() == b"{".as_slice()
        }
        (Stop::Closed, Kind::Closer(Delim::Brace)) => {
            token.text.as_bytes() == b"}".as_slice()
        }
        _ => false,
    }
}
/// The error of a reader for this error of the lexer.
fn unread(error: FormatError) -> ReadNone {
    match error {
        FormatError::Refused(_) => ReadNone::NoReading,
        FormatError::NoMemory => ReadNone::NoMemory,
    }
}
