//! Made by scripts/rust.sh from crates/lay_printer/src/engine.rt, which is proved: change that.
//!
//! Where scanning and printing meet: the first entry of the row is printed once it is decided
//! whether it fits.
use crate::generated::lay_printer::page::Page;
use crate::generated::lay_io::{Failed, Sink};
use crate::generated::lay_layout::Break;
use crate::generated::lay_queue::{Queue, least_width};
use crate::generated::lay_ring::LentTok;
use crate::generated::lay_stream::exceeds;
use crate::generated::lay_text::NoMemory;
/// Why a call of a printer failed.
#[derive(Clone, Copy, Debug, PartialEq, Eq,)]
pub enum PrintError {
    /// A write of the sink failed.
    WriteFailed,
    /// Memory could not be allocated.
    NoMemory,
}
/// The waiting tokens, and the state of the layout before them. There is room for a frame for each
/// token.
pub struct Engine {
    pub queue: Queue,
    pub page: Page,
    /// How many bytes of text may wait before the oldest entry is forced; computed when it is found
    /// undecided.
    pub limit: u64,
}
impl Engine {
    /// Takes a token, and prints what is then decided. `roomy` says that there is room for it, so
    /// that room need not be looked for. The oldest entry wasn't decided before, so few tokens can
    /// decide it.
    #[inline(always)]
    pub fn feed<
        K: Sink,
    >(&mut self, sink: &mut K, tok: LentTok<'_>, roomy: bool) -> Result<(), PrintError> {
        let waits = self.waits();
        match self.take(tok, roomy) {
            Ok(()) => {}
            Err(NoMemory) => return Err(PrintError::NoMemory),
        }
        if waits && self.stays(tok) {
            return Ok(());
        }
        match self.print_decided(sink, 0) {
            Ok(()) => Ok(()),
            Err(Failed) => Err(PrintError::WriteFailed),
        }
    }
    /// Whether a token waits.
    #[inline(always)]
    fn waits(&self) -> bool {
        self.queue.len() > 0
    }
    /// Whether the oldest entry is still undecided after this token: a text decides it if more text
    /// waits than may, and a break if it ends its measured width.
    #[inline(always)]
    fn stays(&self, tok: LentTok<'_>) -> bool {
        match tok {
            LentTok::Text(_) => self.queue.waiting() <= self.limit,
            LentTok::Break(_) => self.is_open_at_front(),
            _ => true,
        }
    }
    /// Whether the oldest entry has no size yet.
    #[inline(always)]
    fn is_open_at_front(&self) -> bool {
        match self.queue.front() {
            Some(entry) => entry.size < 0,
            None => false,
        }
    }
    /// Whether nothing waits.
    #[inline(always)]
    pub fn is_idle(&self) -> bool {
        self.queue.len() == 0
    }
    /// Prints a text at once. Nothing may wait.
    #[inline(always)]
    pub fn print_text<
        K: Sink,
    >(&mut self, sink: &mut K, text: &[u8]) -> Result<(), Failed> {
        self.queue.pass();
        self.page.print_text(sink, text)
    }
    /// Takes a text that is longer than any line. It decides everything that waits: so that is
    /// printed, and then the text.
    #[inline(never)]
    pub fn print_long<
        K: Sink,
    >(&mut self, sink: &mut K, text: &[u8]) -> Result<(), Failed> {
        match self.print_decided(sink, text.len() as u64) {
            Ok(()) => {}
            Err(Failed) => return Err(Failed),
        }
        self.queue.pass();
        self.page.print_text(sink, text)
    }
    /// Whether a break can be printed at once: nothing waits, and what follows it doesn't matter.
    #[inline(always)]
    pub fn is_clear(&self, brk: Break) -> bool {
        if self.is_idle() {
            return self.page.is_clear(brk);
        }
        false
    }
    /// Prints a break at once.
    #[inline(always)]
    pub fn print_break<
        K: Sink,
    >(&mut self, sink: &mut K, brk: Break) -> Result<(), Failed> {
        self.queue.pass();
        self.page.print_break(sink, brk)
    }
    /// Prints the rest: no more tokens come. Then tokens may come again.
    pub fn finish<K: Sink>(&mut self, sink: &mut K) -> Result<(), Failed> {
        self.queue.end_all();
        match self.print_decided(sink, 0) {
            Ok(()) => {
                self.queue.restart();
                Ok(())
            }
            Err(Failed) => Err(Failed),
        }
    }
    /// Takes a token, and makes room for it unless `roomy`.
    #[inline(always)]
    fn take(&mut self, tok: LentTok<'_>, roomy: bool) -> Result<(), NoMemory> {
        if !roomy {
            self.reserve(1)?;
        }
        self.put(tok);
        Ok(())
    }
    /// Takes a token, for which there must be room. It waits, with room for a frame.
    #[inline(always)]
    fn put(&mut self, tok: LentTok<'_>) {
        let held = self.queue.len();
        debug_assert!(held < 0x8000_0000_0000_0000);
        let room = self.page.frames.spare();
        debug_assert!(held < room);
        self.queue.scan(tok);
    }
    /// Prints entries as long as they are decided; `behind` bytes of text follow those that wait.
    #[inline(never)]
    fn print_decided<
        K: Sink,
    >(&mut self, sink: &mut K, behind: u64) -> Result<(), Failed> {
        while let Some(big) = self.decide(behind) {
            self.print_front(sink, big)?;
        }
        self.limit = self.slack();
        Ok(())
    }
    /// Whether the oldest entry doesn't fit, or `None` if that isn't decided; `behind` bytes of
    /// text follow those that wait.
    #[inline(always)]
    fn decide(&self, behind: u64) -> Option<bool> {
        match self.queue.front() {
            None => None,
            Some(entry) => {
                if entry.size >= 0 {
                    return Some(exceeds(&self.page.line, 0, entry.size as u64));
                }
                let waiting = self.queue.waiting().saturating_add(behind);
                if exceeds(&self.page.line, least_width(entry.tok), waiting) {
                    Some(true)
                } else { None }
            }
        }
    }
    /// How many bytes of text may wait before the oldest entry, which is undecided, is forced.
    #[inline(always)]
    fn slack(&self) -> u64 {
        match self.queue.front() {
            None => 0,
            Some(entry) => {
                self.page.line.room - self.page.line.used - least_width(entry.tok)
            }
        }
    }
    /// Prints and drops the oldest entry; if it is a text, the texts that follow it too. `big` says
    /// that it doesn't fit.
    #[inline(always)]
    fn print_front<K: Sink>(&mut self, sink: &mut K, big: bool) -> Result<(), Failed> {
        let queue = &self.queue;
        let texts = queue.texts();
        if texts.count > 0 {
            let (count, len) = (texts.count, texts.bytes.len());
            let printed = self.page.print_text(sink, texts.bytes);
            self.queue.drop_texts(count, len);
            return printed;
        }
        let printed = match queue.front() {
            Some(entry) => self.page.print(sink, entry.tok, big),
            None => unreachable!(),
        };
        self.queue.drop_front();
        printed
    }
    /// How many more tokens fit without allocating.
    #[inline(always)]
    pub fn room(&self) -> usize {
        let rooms = self.page.frames.spare() - self.queue.len();
        self.queue.room().min(rooms)
    }
    /// How many more tokens surely fit without allocating, after one token: one fewer than
    /// `before`, without a look at the room. It is only looked at if `before` is 0.
    #[inline(always)]
    pub fn room_after(&self, before: usize) -> usize {
        match before.checked_sub(1) {
            Some(less) => less,
            None => self.room(),
        }
    }
    /// Makes room for `n` more tokens.
    pub fn reserve(&mut self, n: usize) -> Result<(), NoMemory> {
        let frames = match self.queue.len().checked_add(n) {
            Some(frames) => frames,
            _ => {
                return Err(NoMemory);
            }
        };
        self.page.frames.reserve(frames)?;
        self.queue.reserve(n)
    }
}
