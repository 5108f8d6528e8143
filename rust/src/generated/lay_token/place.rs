//! Made by scripts/rust.sh from crates/lay_token/src/place.rt, which is proved: change that.
//!
//! Places in a text as line and column.
/// A place in a text, as an editor shows it. Line and column are counted from 1, and columns in
/// bytes.
#[derive(Clone, Copy, Debug, PartialEq, Eq,)]
pub struct Place2 {
    pub line: usize,
    pub column: usize,
}
/// The line and column of the byte with index `at`. The line is 1 more than the number of LFs
/// before it, the column 1 more than the number of bytes since the last of them. An index beyond
/// the text stands for its end.
pub fn place_of(text: &[u8], at: usize) -> Place2 {
    let before = &text[..at.min(text.len())];
    Place2 { line: 1 + line_feeds(before), column: 1 + since_line_feed(before) }
}
/// How many LFs the bytes hold.
fn line_feeds(bytes: &[u8]) -> usize {
    bytes.iter().filter(|byte| **byte == b'\n').count()
}
/// How many bytes follow the last LF.
fn since_line_feed(bytes: &[u8]) -> usize {
    bytes.iter().rev().take_while(|byte| **byte != b'\n').count()
}
