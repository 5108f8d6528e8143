//! Made by scripts/rust.sh from crates/lay_lex/src/source.rt, which is proved: change that.
//!
//! From an input to the text that is lexed.
use crate::shims::Vec;
use crate::generated::lay_lex::ends::without_end;
use crate::generated::lay_lex::gap::is_white;
use crate::generated::lay_token::piece::chars::first;
use crate::generated::lay_token::{FormatError, List, NoMemory, Refusal, Text};
use crate::shims::Global;
/// An input, prepared for lexing.
#[derive(Debug,)]
pub struct Source {
    /// The shebang line, without the LF that ends it and without any CR before that.
    pub shebang: Option<Text>,
    /// The whole text, without a byte order mark and with one LF for each CR LF.
    pub text: List<u8>,
    /// The byte offset where lexing begins: after the shebang line.
    pub start: usize,
}
impl Source {
    /// The whole text, as a `str`.
    pub fn as_str(&self) -> &str {
        crate::shims::text(self.text.as_slice())
    }
}
/// Prepares an input for lexing (Rust Reference, "Input format"). The only syntax error is
/// `NotUtf8`.
pub fn normalise(alloc: Global, bytes: &[u8]) -> Result<Source, FormatError> {
    let text = match core::str::from_utf8(bytes) {
        Ok(text) => text,
        Err(error) => {
            let at = error.valid_up_to();
            return Err(FormatError::Refused(Refusal::NotUtf8 { at }));
        }
    };
    match source_of(alloc, text) {
        Ok(source) => Ok(source),
        Err(_) => Err(FormatError::NoMemory),
    }
}
/// Prepares a text for lexing.
fn source_of(alloc: Global, s: &str) -> Result<Source, NoMemory> {
    let text = folded(alloc, without_mark(s))?;
    let whole = crate::shims::text(text.as_slice());
    let (shebang, start) = shebang(alloc, whole)?;
    Ok(Source { shebang, text: List::from_vec(text), start })
}
/// The text without a byte order mark at its beginning.
fn without_mark(s: &str) -> &str {
    match first(s) {
        Some(('\u{feff}', tail)) => tail,
        _ => s,
    }
}
/// The text with one LF for each CR LF.
fn folded(alloc: Global, s: &str) -> Result<Vec<u8>, NoMemory> {
    let mut text = Vec::with_capacity(alloc, s.len())?;
    let mut rest = s.as_bytes();
    if !has_return(rest) {
        text.extend_from_slice(rest)?;
        return Ok(text);
    }
    while let Some((byte, tail)) = rest.split_first() {
        if !(*byte == b'\r' && begins_line_feed(tail)) {
            text.push(*byte)?;
        }
        rest = tail;
    }
    Ok(text)
}
/// Whether the bytes hold a CR.
fn has_return(bytes: &[u8]) -> bool {
    bytes.contains(&b'\r')
}
/// Whether the bytes begin with an LF.
fn begins_line_feed(bytes: &[u8]) -> bool {
    match bytes.first() {
        Some(byte) => *byte == b'\n',
        None => false,
    }
}
/// The shebang line of a text, if it has one, and the byte offset where lexing begins.
fn shebang(alloc: Global, text: &str) -> Result<(Option<Text>, usize), NoMemory> {
    if !begins_shebang(text) {
        return Ok((None, 0));
    }
    let line = first_line(text);
    if !is_shebang(line) {
        return Ok((None, 0));
    }
    let shebang = Text::from_bytes(alloc, without_end(b'\r', line))?;
    let start = if line.len() < text.len() { line.len() + 1 } else { line.len() };
    Ok((Some(shebang), start))
}
/// Whether the text begins with `#!`. If it doesn't, no line end is searched, which might be far
/// away.
fn begins_shebang(text: &str) -> bool {
    match first(text) {
        Some(('#', tail)) => {
            match first(tail) {
                Some(('!', _)) => true,
                _ => false,
            }
        }
        _ => false,
    }
}
/// The first line, without the LF that ends it.
fn first_line(s: &str) -> &str {
    &s[..s.len() - after_line(s).len()]
}
/// The text after the first line, with the LF that ends the line.
fn after_line(s: &str) -> &str {
    let mut rest = s;
    while let Some((c, tail)) = first(rest) {
        if c == '\n' {
            break;
        }
        rest = tail;
    }
    rest
}
/// Whether the first line is a shebang line.
fn is_shebang(line: &str) -> bool {
    match first(line) {
        Some(('#', tail)) => {
            match first(tail) {
                Some(('!', rest)) => !is_no_command(after_white(rest)),
                _ => false,
            }
        }
        _ => false,
    }
}
/// Whether the text is empty, or begins an attribute or a comment.
fn is_no_command(s: &str) -> bool {
    match first(s) {
        Some(('[', _)) | None => true,
        Some(('/', tail)) => {
            match first(tail) {
                Some(('/', _)) | Some(('*', _)) => true,
                _ => false,
            }
        }
        _ => false,
    }
}
/// The text after the leading white space.
fn after_white(s: &str) -> &str {
    let mut rest = s;
    while let Some((c, tail)) = first(rest) {
        if !is_white(c) {
            break;
        }
        rest = tail;
    }
    rest
}
