//! Made by scripts/rust.sh from crates/lay_stream/src/line.rt, which is proved: change that.
//!
//! The line that is being written.
use crate::generated::lay_io::{Failed, Sink};
use crate::generated::lay_layout::{
    Break,
    Frame,
    GREATEST_BLANKS,
    GREATEST_WIDTH,
    LEAST_SPACE,
    MARGIN,
    Mark,
    shifted,
};
/// The blanks that are pending, the columns of the line, and how many of them are used.
#[derive(Clone, Copy, Debug,)]
pub struct Line {
    pub pending: u64,
    pub room: u64,
    pub used: u64,
}
/// The greatest count of used columns: the space that is left is exact down to -2^62.
const USED: u64 = GREATEST_WIDTH + MARGIN;
/// Whether `width + length` is greater than the space that is left.
#[inline(always)]
pub fn exceeds(line: &Line, width: u64, length: u64) -> bool {
    if line.used > line.room {
        return true;
    }
    let space = line.room - line.used;
    if width > space {
        return true;
    }
    space - width < length
}
impl Line {
    /// Writes the pending blanks, if there are any.
    #[inline(always)]
    fn write_blanks<K: Sink>(&mut self, sink: &mut K) -> Result<(), Failed> {
        if self.pending == 0 {
            return Ok(());
        }
        self.write_pending(sink)
    }
    /// Writes the pending blanks, up to 64 in a write.
    #[inline(never)]
    fn write_pending<K: Sink>(&mut self, sink: &mut K) -> Result<(), Failed> {
        let blanks = [b' '; 64];
        while self.pending > 0 {
            let count = self.pending.min(64);
            sink.write(&blanks[..count as usize])?;
            self.pending -= count;
        }
        Ok(())
    }
    /// Writes the pending blanks and then the bytes.
    pub fn write<K: Sink>(&mut self, sink: &mut K, bytes: &[u8]) -> Result<(), Failed> {
        self.write_blanks(sink)?;
        sink.write(bytes)?;
        self.used = self.used.saturating_add(bytes.len() as u64).min(USED);
        Ok(())
    }
    /// Writes a mark, if there is one.
    #[inline(always)]
    fn put_mark<K: Sink>(&mut self, sink: &mut K, mark: Mark) -> Result<(), Failed> {
        match mark {
            Mark::Absent => Ok(()),
            Mark::Comma => self.write(sink, b","),
            Mark::OpenBrace => self.write(sink, b"{"),
            Mark::CloseBrace => self.write(sink, b"}"),
        }
    }
    /// Writes a newline. The blanks that begin the new line are pending.
    fn start_line<K: Sink>(&mut self, sink: &mut K, blanks: u64) -> Result<(), Failed> {
        sink.write(b"\n")?;
        self.pending = blanks;
        self.room = MARGIN.saturating_sub(blanks).max(LEAST_SPACE);
        self.used = 0;
        Ok(())
    }
    /// Writes a break that is a newline, in a frame with this indent.
    #[inline(never)]
    fn newline<
        K: Sink,
    >(&mut self, sink: &mut K, brk: Break, indent: u64) -> Result<(), Failed> {
        self.put_mark(sink, brk.before)?;
        self.start_line(sink, shifted(indent, brk.offset))?;
        self.put_mark(sink, brk.after)
    }
    /// Adds pending blanks, up to [`GREATEST_BLANKS`].
    #[inline(always)]
    fn add_blanks(&mut self, blank: u16) {
        self.pending = self.pending.saturating_add(blank as u64).min(GREATEST_BLANKS);
        self.used = self.used.saturating_add(blank as u64).min(USED);
    }
    /// Writes a break that is no newline.
    #[inline(always)]
    fn skip<K: Sink>(&mut self, sink: &mut K, brk: Break) -> Result<(), Failed> {
        self.add_blanks(brk.blank);
        self.put_mark(sink, brk.instead)
    }
    /// Writes a break in this frame.
    #[inline(always)]
    pub fn put_break<
        K: Sink,
    >(
        &mut self,
        sink: &mut K,
        frame: Frame,
        brk: Break,
        big: bool,
    ) -> Result<(), Failed> {
        if brk.never {
            return self.skip(sink, brk);
        }
        match frame {
            Frame::Broken { consistent, indent } => {
                if consistent || big { self.newline(sink, brk, indent) } else {
                    self.skip(sink, brk)
                }
            }
            Frame::Flat => self.skip(sink, brk),
        }
    }
}
