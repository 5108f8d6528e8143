//! Made by scripts/rust.sh from crates/lay_piece/src/piece/quoted.rt, which is proved: change that.
//!
//! Character, string and raw string literals, after their opening quote.
use crate::generated::lay_piece::kind::Kind;
use crate::generated::lay_piece::piece::chars::{CharSet, behind, first};
/// What a literal may hold, and which escapes it has.
#[derive(Clone, Copy, Debug, PartialEq, Eq)]
pub enum Contents {
    /// Characters.
    Chars,
    /// Bytes, written in ASCII or as escapes.
    Bytes,
    /// Characters and bytes other than NUL.
    CChars,
}
impl Contents {
    fn is_plain(self, c: char) -> bool {
        match self {
            Contents::Chars => c != '\r',
            Contents::Bytes => c != '\r' && c < '\u{80}',
            Contents::CChars => c != '\r' && c != '\0',
        }
    }
    fn is_short_escape(self, c: char) -> bool {
        match c {
            'n' => true,
            'r' => true,
            't' => true,
            '\\' => true,
            '\'' => true,
            '"' => true,
            '0' => self != Contents::CChars,
            _ => false,
        }
    }
    fn is_byte_value(self, value: u32) -> bool {
        match self {
            Contents::Chars => value < 0x80,
            Contents::Bytes => true,
            Contents::CChars => value != 0,
        }
    }
    fn is_char_value(self, value: u32) -> bool {
        if value == 0 && self == Contents::CChars {
            return false;
        }
        value < 0x11_0000 && !(0xd800 <= value && value <= 0xdfff)
    }
    fn takes_unicode(self) -> bool {
        match self {
            Contents::Bytes => false,
            _ => true,
        }
    }
}
/// A literal before `rest`: its kind, and the text after its suffix, if one follows.
pub fn literal(kind: Kind, rest: &str) -> (Kind, &str) {
    (kind, after_suffix(rest))
}
fn after_suffix(s: &str) -> &str {
    if begins_suffix(s) { CharSet::Word.after(s) } else { s }
}
/// Whether the text begins with an identifier that is more than a lone underscore.
pub fn begins_suffix(s: &str) -> bool {
    match first(s) {
        None => false,
        Some((c, tail)) => {
            if !CharSet::WordStart.contains(c) { false } else if c == '_' {
                CharSet::Word.begins(tail)
            } else { true }
        }
    }
}
/// The text after a string literal; `s` follows its opening quote.
pub fn after_string(of: Contents, s: &str) -> Option<&str> {
    let mut rest = s;
    while let Some((c, tail)) = first(rest) {
        if c == '"' {
            return Some(tail);
        }
        rest = after_string_char(of, c, tail)?;
    }
    None
}
/// The text after one character of a string, or after the escape that writes it.
fn after_string_char(of: Contents, c: char, tail: &str) -> Option<&str> {
    if c != '\\' {
        return if of.is_plain(c) { Some(tail) } else { None };
    }
    match behind('\n', tail) {
        Some(next_line) => Some(CharSet::Skipped.after(next_line)),
        None => after_escape(of, tail),
    }
}
/// The text after a character literal; `s` follows its opening quote.
pub fn after_char(of: Contents, s: &str) -> Option<&str> {
    let (c, tail) = first(s)?;
    if c == '\\' {
        behind('\'', after_escape(of, tail)?)
    } else if c == '\'' || c == '\n' || c == '\t' || !of.is_plain(c) { None } else {
        behind('\'', tail)
    }
}
/// The text after an escape; `s` follows its backslash.
fn after_escape(of: Contents, s: &str) -> Option<&str> {
    let (c, tail) = first(s)?;
    if of.is_short_escape(c) { Some(tail) } else if c == 'x' {
        after_byte_value(of, tail)
    } else if c == 'u' && of.takes_unicode() {
        after_char_value(of, behind('{', tail)?)
    } else { None }
}
/// The text after the two digits of `\x`.
fn after_byte_value(of: Contents, s: &str) -> Option<&str> {
    let (high, tail) = first(s)?;
    let high = hex_value(high)?;
    let (low, rest) = first(tail)?;
    let low = hex_value(low)?;
    if of.is_byte_value(16 * high + low) { Some(rest) } else { None }
}
/// The text after the digits of `\u{` and their closing brace.
fn after_char_value(of: Contents, s: &str) -> Option<&str> {
    let mut count = 0u32;
    let mut value = 0u32;
    let mut rest = s;
    while let Some((c, tail)) = first(rest) {
        rest = tail;
        match hex_value(c) {
            Some(digit) => {
                if count == 6 {
                    return None;
                }
                count += 1;
                value = 16 * value + digit;
            }
            None => {
                if count == 0 {
                    return None;
                }
                if c == '}' {
                    return if of.is_char_value(value) { Some(rest) } else { None };
                }
                if c != '_' {
                    return None;
                }
            }
        }
    }
    None
}
/// The value of a hexadecimal digit.
fn hex_value(c: char) -> Option<u32> {
    match c {
        '0'..='9' => Some(c as u32 - 48),
        'A'..='F' => Some(c as u32 - 55),
        'a'..='f' => Some(c as u32 - 87),
        _ => None,
    }
}
/// The text after a raw string literal; `s` follows its `r`.
pub fn after_raw(of: Contents, s: &str) -> Option<&str> {
    let (hashes, opened) = hashes(255, s);
    let mut rest = behind('"', opened)?;
    while let Some((c, tail)) = first(rest) {
        rest = tail;
        if c == '"' {
            let (closing, behind_hashes) = self::hashes(hashes, tail);
            if closing == hashes {
                return Some(behind_hashes);
            }
            rest = behind_hashes;
        } else if !of.is_plain(c) {
            return None;
        }
    }
    None
}
/// How many `#` come next, up to `most`, and the text after these.
fn hashes(most: usize, s: &str) -> (usize, &str) {
    let mut missing = most;
    let mut rest = s;
    while 0 < missing {
        match behind('#', rest) {
            Some(tail) => rest = tail,
            None => break,
        }
        missing -= 1;
    }
    (most - missing, rest)
}
