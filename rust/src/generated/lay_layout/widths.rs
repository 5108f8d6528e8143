//! Made by scripts/rust.sh from crates/lay_layout/src/widths.rt, which is proved: change that.
//!
//! The width of a line, and the width of a break that is no newline.
use crate::generated::lay_layout::layout::{Break, Mark};
/// How many columns a line has.
pub const MARGIN: u64 = 89;
/// The least number of columns that a new line has for text, however far it is indented.
pub const LEAST_SPACE: u64 = 60;
/// The greatest number of pending blanks.
pub const GREATEST_BLANKS: u64 = 1_000_000;
/// The greatest width that a printer keeps: 2^62 columns. No line is that wide, so a comparison
/// with the space that is left gives the same answer for every greater width.
pub const GREATEST_WIDTH: u64 = 0x4000_0000_0000_0000;
/// The length of a mark, in bytes.
#[inline(always)]
pub(crate) fn mark_len(mark: Mark) -> u64 {
    match mark {
        Mark::Absent => 0,
        Mark::Comma | Mark::OpenBrace | Mark::CloseBrace => 1,
    }
}
/// The width of a break that is no newline, in columns: its blanks, and a column for each byte of
/// its mark.
#[inline(always)]
pub fn width_of(brk: Break) -> u64 {
    brk.blank as u64 + mark_len(brk.instead)
}
