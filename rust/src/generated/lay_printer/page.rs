//! Made by scripts/rust.sh from crates/lay_printer/src/page.rt, which is proved: change that.
//!
//! The printing half: tokens are put on the current line.
use crate::generated::lay_printer::frames::Frames;
use crate::generated::lay_io::{Failed, Sink};
use crate::generated::lay_layout::{Break, asks_at_break, entered, width_of};
use crate::generated::lay_ring::LentTok;
use crate::generated::lay_stream::{Line, exceeds};
/// The state of the layout: the line that is being written, and the frames of the open groups.
pub struct Page {
    pub line: Line,
    pub frames: Frames,
}
impl Page {
    /// Prints a text.
    #[inline(always)]
    pub fn print_text<
        K: Sink,
    >(&mut self, sink: &mut K, text: &[u8]) -> Result<(), Failed> {
        self.line.write(sink, text)
    }
    /// Prints a break as one that doesn't fit.
    #[inline(always)]
    pub fn print_break<
        K: Sink,
    >(&mut self, sink: &mut K, brk: Break) -> Result<(), Failed> {
        self.line.put_break(sink, self.frames.top(), brk, true)
    }
    /// Whether a break is printed as one that doesn't fit, whatever follows it.
    #[inline(always)]
    pub fn is_clear(&self, brk: Break) -> bool {
        if asks_at_break(self.frames.top(), brk) {
            return exceeds(&self.line, width_of(brk), 0);
        }
        true
    }
    /// Prints a token; `big` says that its width up to the next break is greater than the space
    /// that is left.
    pub fn print<
        K: Sink,
    >(&mut self, sink: &mut K, tok: LentTok<'_>, big: bool) -> Result<(), Failed> {
        match tok {
            LentTok::Text(text) => self.line.write(sink, text),
            LentTok::Break(brk) => {
                self.line.put_break(sink, self.frames.top(), brk, big)
            }
            LentTok::Begin { consistent, offset } => {
                let frame = entered(self.frames.top(), consistent, offset, big);
                self.frames.push(frame);
                Ok(())
            }
            LentTok::End => {
                self.frames.pop();
                Ok(())
            }
        }
    }
}
