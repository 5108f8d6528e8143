//! Made by scripts/rust.sh from crates/lay_cook/src/strings.rt, which is proved: change that.
//!
//! The values of string literals; the functions get the text after the opening quote.
use crate::generated::lay_token::piece::chars::{CharSet, behind, first};
use crate::generated::lay_token::{NoMemory, Text};
/// Appends the value of a string literal to a text.
pub fn push_value(value: &mut Text, inside: &str) -> Result<(), NoMemory> {
    let mut rest = inside;
    'runs: loop {
        let (run, mark) = run(rest);
        value.push_bytes(run)?;
        match behind('\\', mark) {
            None => return Ok(()),
            Some(turned) => {
                let (escaped, tail) = escape(turned);
                push_escaped(value, escaped)?;
                rest = tail;
            }
        }
    }
}
/// The leading characters that stand for themselves, and the text after them.
fn run(s: &str) -> (&[u8], &str) {
    let rest = after_run(s);
    (&s.as_bytes()[..s.len() - rest.len()], rest)
}
/// The text after the leading characters that stand for themselves.
fn after_run(s: &str) -> &str {
    let mut rest = s;
    while let Some((c, tail)) = first(rest) {
        if c == '"' || c == '\\' {
            break;
        }
        rest = tail;
    }
    rest
}
/// Appends the character that an escape stands for, if it stands for one.
fn push_escaped(value: &mut Text, escaped: Option<char>) -> Result<(), NoMemory> {
    match escaped {
        None => Ok(()),
        Some(c) => value.push_bytes(c.encode_utf8(&mut [0; 4]).as_bytes()),
    }
}
/// The character that an escape stands for, and the text after it; `s` follows the backslash. An
/// escaped line end stands for no character.
fn escape(s: &str) -> (Option<char>, &str) {
    let (c, tail) = next(s);
    match c {
        '\n' => (None, CharSet::Skipped.after(tail)),
        'x' => {
            let (value, rest) = byte_value(tail);
            (Some(value), rest)
        }
        'u' => {
            let (value, rest) = char_value(tail);
            (Some(value), rest)
        }
        _ => (Some(short_escape(c)), tail),
    }
}
/// The character that an escape of one letter or mark stands for, as `\n`.
fn short_escape(c: char) -> char {
    match c {
        'n' => '\n',
        'r' => '\r',
        't' => '\t',
        '0' => '\0',
        _ => c,
    }
}
/// The character of the two digits after `\x`, and the text after them.
fn byte_value(s: &str) -> (char, &str) {
    let (high, tail) = next(s);
    let (low, rest) = next(tail);
    ((16 * digit(high) + digit(low)) as char, rest)
}
/// The character of the digits after `\u`, and the text after their closing brace.
fn char_value(s: &str) -> (char, &str) {
    let (_, digits) = next(s);
    let mut value = 0u32;
    let mut rest = digits;
    'digits: loop {
        let (c, tail) = next(rest);
        rest = tail;
        match c {
            '}' => return (char::from_u32(value).unwrap(), rest),
            '_' => {}
            _ => value = 16 * value + digit(c) as u32,
        }
    }
}
/// The value of a hexadecimal digit.
fn digit(c: char) -> u8 {
    match c {
        '0'..='9' => c as u8 - 48,
        'A'..='F' => c as u8 - 55,
        _ => c as u8 - 87,
    }
}
/// The first character of a text that isn't empty, and the text after it.
pub fn next(s: &str) -> (char, &str) {
    match first(s) {
        Some(next) => next,
        None => unreachable!(),
    }
}
