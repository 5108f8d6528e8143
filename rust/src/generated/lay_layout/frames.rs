//! Made by scripts/rust.sh from crates/lay_layout/src/frames.rt, which is proved: change that.
//!
//! How a frame lays out a break, and a group nested in it.
use crate::generated::lay_layout::layout::{Break, Frame};
/// The greatest indent of a frame, in columns.
pub const GREATEST_INDENT: u64 = 240;
/// The frame outside all groups.
pub const OUTSIDE: Frame = Frame::Broken { consistent: false, indent: 0 };
/// The sum of an indent and an offset, or 0 if the sum is negative.
#[inline]
pub fn shifted(indent: u64, offset: i8) -> u64 {
    let sum = indent as i64 + offset as i64;
    if sum < 0 { 0 } else { sum as u64 }
}
/// The frame of a group that begins in `frame`; `big` says that the group's width up to the next
/// break is greater than the space that is left.
#[inline]
pub fn entered(frame: Frame, consistent: bool, offset: i8, big: bool) -> Frame {
    match frame {
        Frame::Flat => Frame::Flat,
        Frame::Broken { consistent: _, indent } => {
            if big {
                Frame::Broken {
                    consistent,
                    indent: shifted(indent, offset).min(GREATEST_INDENT),
                }
            } else { Frame::Flat }
        }
    }
}
/// Whether laying out a break in this frame depends on its width being greater than the space that
/// is left.
#[inline(always)]
pub fn asks_at_break(frame: Frame, brk: Break) -> bool {
    match frame {
        Frame::Broken { consistent, .. } => !consistent && !brk.never,
        Frame::Flat => false,
    }
}
