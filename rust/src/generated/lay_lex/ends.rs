//! Made by scripts/rust.sh from crates/lay_lex/src/ends.rt, which is proved: change that.
//!
//! A text without its first or last characters.
use crate::generated::lay_token::piece::chars::first;
/// The text without its first character.
pub fn behind_first(s: &str) -> &str {
    match first(s) {
        Some((_, tail)) => tail,
        None => s,
    }
}
/// The text without its last character.
pub fn before_last(s: &str) -> &str {
    let mut rest = s.chars();
    match rest.next_back() {
        Some(_) => rest.as_str(),
        None => s,
    }
}
/// The bytes of the text without this ASCII character at its end, however often it stands there.
pub fn without_end(byte: u8, s: &str) -> &[u8] {
    let mut bytes = s.as_bytes();
    while let Some((last, front)) = bytes.split_last() {
        if *last != byte {
            break;
        }
        bytes = front;
    }
    bytes
}
/// Whether the text holds an LF.
pub fn has_line_feed(s: &str) -> bool {
    s.as_bytes().contains(&b'\n')
}
