//! Made by scripts/rust.sh from crates/lay_printer/src/printer.rt, which is proved: change that.
//!
//! The state of a printer beside its sink.
use crate::generated::lay_printer::engine::{Engine, PrintError};
use crate::generated::lay_printer::frames::Frames;
use crate::generated::lay_printer::page::Page;
use crate::generated::lay_io::{Failed, Sink};
use crate::generated::lay_layout::{Break, GREATEST_WIDTH, MARGIN};
use crate::generated::lay_queue::Queue;
use crate::generated::lay_ring::LentTok;
use crate::generated::lay_stream::Line;
use crate::generated::lay_text::{NoMemory, Text};
use crate::shims::Global;
/// The state of a printer beside its sink. It owns the memory. Contracts see the waiting tokens
/// with their sizes and the number of the first one, how many groups are open, how many more tokens
/// fit without allocating, the error of the failed call, if there was one, and the state of the
/// layout.
pub struct Core {
    engine: Engine,
    failed: Option<PrintError>,
    spare: usize,
}
/// `a - b`, which may be negative.
fn difference(a: u64, b: u64) -> i64 {
    a as i64 - b as i64
}
impl Core {
    /// A printer that has taken no token.
    pub fn new(alloc: Global) -> Result<Core, NoMemory> {
        let queue = Queue::new(alloc)?;
        let line = Line { pending: 0, room: MARGIN, used: 0 };
        let frames = Frames::new(alloc);
        let page = Page { line, frames };
        Ok(Core { engine: Engine { queue, page, limit: 0 }, failed: None, spare: 0 })
    }
    /// Takes a text.
    pub fn text<
        K: Sink,
    >(&mut self, sink: &mut K, text: &[u8]) -> Result<(), PrintError> {
        self.put_text(sink, text)
    }
    /// Takes a text by value. If there is room for a token, it doesn't allocate.
    pub fn text_owned<
        K: Sink,
    >(&mut self, sink: &mut K, text: Text) -> Result<(), PrintError> {
        self.put_text(sink, text.as_bytes())
    }
    /// Takes a break.
    pub fn brk<K: Sink>(&mut self, sink: &mut K, brk: Break) -> Result<(), PrintError> {
        if self.failed.is_none() && self.engine.is_clear(brk) {
            return self.print_break(sink, brk);
        }
        self.feed(sink, LentTok::Break(brk))
    }
    /// Begins a group.
    pub fn begin<
        K: Sink,
    >(&mut self, sink: &mut K, consistent: bool, offset: i8) -> Result<(), PrintError> {
        self.feed(sink, LentTok::Begin { consistent, offset })
    }
    /// Ends the innermost open group.
    pub fn end<K: Sink>(&mut self, sink: &mut K) -> Result<(), PrintError> {
        self.feed(sink, LentTok::End)
    }
    /// Takes a text, which is copied if it waits.
    #[inline(always)]
    fn put_text<
        K: Sink,
    >(&mut self, sink: &mut K, text: &[u8]) -> Result<(), PrintError> {
        if let Some(fault) = self.failed {
            return Err(fault);
        }
        if self.engine.is_idle() {
            return self.print_text(sink, text);
        }
        if text.len() as u64 > MARGIN {
            return self.print_long(sink, text);
        }
        self.feed(sink, LentTok::Text(text))
    }
    /// Takes a text that is longer than any line.
    #[inline(never)]
    fn print_long<
        K: Sink,
    >(&mut self, sink: &mut K, text: &[u8]) -> Result<(), PrintError> {
        match self.engine.print_long(sink, text) {
            Ok(()) => Ok(()),
            Err(Failed) => {
                self.failed = Some(PrintError::WriteFailed);
                Err(PrintError::WriteFailed)
            }
        }
    }
    /// Takes a text while nothing waits.
    #[inline(always)]
    fn print_text<
        K: Sink,
    >(&mut self, sink: &mut K, text: &[u8]) -> Result<(), PrintError> {
        match self.engine.print_text(sink, text) {
            Ok(()) => Ok(()),
            Err(Failed) => {
                self.failed = Some(PrintError::WriteFailed);
                Err(PrintError::WriteFailed)
            }
        }
    }
    /// Takes a break that is printed at once.
    #[inline(always)]
    fn print_break<
        K: Sink,
    >(&mut self, sink: &mut K, brk: Break) -> Result<(), PrintError> {
        match self.engine.print_break(sink, brk) {
            Ok(()) => Ok(()),
            Err(Failed) => {
                self.failed = Some(PrintError::WriteFailed);
                Err(PrintError::WriteFailed)
            }
        }
    }
    /// Takes a token, unless a call has failed.
    #[inline(always)]
    fn feed<
        K: Sink,
    >(&mut self, sink: &mut K, tok: LentTok<'_>) -> Result<(), PrintError> {
        if let Some(fault) = self.failed {
            return Err(fault);
        }
        match self.engine.feed(sink, tok, self.spare > 0) {
            Ok(()) => {
                self.spare = self.engine.room_after(self.spare);
                Ok(())
            }
            Err(fault) => {
                self.spare = self.engine.room();
                self.failed = Some(fault);
                Err(fault)
            }
        }
    }
    /// Prints the rest, since no more tokens come. No group may be open, unless a call has failed.
    /// A printer that has failed leaves the sink as it is.
    pub fn finish<K: Sink>(&mut self, sink: &mut K) -> Result<(), PrintError> {
        if let Some(fault) = self.failed {
            return Err(fault);
        }
        match self.engine.finish(sink) {
            Ok(()) => {
                self.spare = self.engine.room();
                Ok(())
            }
            Err(Failed) => {
                self.spare = self.engine.room();
                self.failed = Some(PrintError::WriteFailed);
                Err(PrintError::WriteFailed)
            }
        }
    }
    /// How many groups are open. `end` requires at least one, `finish` none.
    pub fn open_groups(&self) -> u64 {
        self.engine.queue.groups()
    }
    /// How many bytes of text were taken and aren't in the sink yet: at most as many as fit in the
    /// space that is left.
    pub fn waiting(&self) -> usize {
        self.engine.queue.waiting() as usize
    }
    /// How many tokens wait.
    pub fn len(&self) -> usize {
        self.engine.queue.len()
    }
    /// The columns that are left on the line, at least -2^62.
    pub fn space(&self) -> i64 {
        let line = &self.engine.page.line;
        let room = line.room.min(MARGIN);
        let used = line.used.min(room + GREATEST_WIDTH);
        difference(room, used)
    }
    /// How many more tokens fit without allocating.
    pub fn spare(&self) -> usize {
        self.spare
    }
    /// Makes room for `n` more tokens, and changes nothing else. After `NoMemory` nothing is
    /// changed.
    pub fn reserve(&mut self, n: usize) -> Result<(), NoMemory> {
        self.engine.reserve(n)?;
        self.spare = self.spare.max(n);
        Ok(())
    }
}
