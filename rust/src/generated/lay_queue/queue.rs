//! Made by scripts/rust.sh from crates/lay_queue/src/queue.rt, which is proved: change that.
//!
//! The scanning half: waiting tokens, with the sizes that are known of them.
use crate::generated::lay_queue::close::{CAP, Note, close};
use crate::generated::lay_layout::{Break, width_of};
use crate::generated::lay_ring::{LentEntry, LentTok, Marks, Row, Texts, UNKNOWN};
use crate::generated::lay_text::NoMemory;
use crate::shims::Global;
/// Waiting tokens, the oldest first, and notes of those whose size is unknown.
pub struct Queue {
    ring: Row,
    notes: Marks<Note>,
    /// The width from the newest note on, at most [`CAP`].
    acc: u64,
    /// How many groups are open after all tokens.
    groups: u64,
    /// How many bytes of text wait.
    waiting: u64,
    /// No more tokens come.
    ended: bool,
}
/// The least width of a token without its text: the width of a break, else 0.
#[inline(always)]
pub fn least_width(tok: LentTok<'_>) -> u64 {
    match tok {
        LentTok::Break(brk) => width_of(brk),
        _ => 0,
    }
}
/// How many bytes of text a token has.
fn text_len(tok: LentTok<'_>) -> u64 {
    match tok {
        LentTok::Text(text) => text.len() as u64,
        _ => 0,
    }
}
/// Drops the oldest note, if the oldest entry, which has this size, has one: that is, if the size
/// is unknown.
fn drop_note(notes: &mut Marks<Note>, size: i64) {
    if size < 0 {
        let _ = notes.pop_oldest();
    }
}
impl Queue {
    /// An empty queue.
    pub fn new(alloc: Global) -> Result<Queue, NoMemory> {
        let ring = Row::new(alloc)?;
        let notes = Marks::new(alloc, 0)?;
        Ok(Queue { ring, notes, acc: 0, groups: 0, waiting: 0, ended: false })
    }
    /// The oldest token, and its size.
    #[inline(always)]
    pub fn front(&self) -> Option<LentEntry<'_>> {
        self.ring.front()
    }
    /// The texts at the front, as one, up to the first token that is none.
    #[inline(always)]
    pub fn texts(&self) -> Texts<'_> {
        self.ring.texts()
    }
    /// How many tokens wait.
    #[inline(always)]
    pub fn len(&self) -> usize {
        self.ring.len()
    }
    /// How many bytes of text wait.
    #[inline(always)]
    pub fn waiting(&self) -> u64 {
        self.waiting
    }
    /// How many groups are open after all tokens.
    #[inline(always)]
    pub fn groups(&self) -> u64 {
        self.groups
    }
    /// How many more tokens fit without allocating.
    #[inline(always)]
    pub fn room(&self) -> usize {
        self.ring.spare().min(self.notes.spare())
    }
    /// Makes room for `n` more tokens, each of which may have a note.
    #[inline(always)]
    pub fn reserve(&mut self, n: usize) -> Result<(), NoMemory> {
        self.ring.reserve(n)?;
        self.notes.reserve(n)
    }
    /// Takes a token, for which there must be room.
    #[inline(always)]
    pub fn scan(&mut self, tok: LentTok<'_>) {
        match tok {
            LentTok::Text(text) => self.scan_text(text),
            LentTok::Break(brk) => self.scan_break(brk),
            LentTok::Begin { consistent, offset } => self.scan_begin(consistent, offset),
            LentTok::End => self.scan_end(),
        }
    }
    /// Takes a text. Its size is known at once.
    #[inline(always)]
    fn scan_text(&mut self, text: &[u8]) {
        let len = text.len() as u64;
        let _ = self.ring.push(LentTok::Text(text), len as i64);
        self.acc = (self.acc + len).min(CAP);
        self.waiting += len;
    }
    /// Takes a break. It ends the measured width of all that was noted with at least as many groups
    /// open.
    #[inline(always)]
    fn scan_break(&mut self, brk: Break) {
        let width = width_of(brk);
        let delta = close(&mut self.ring, &mut self.notes, self.acc, self.groups);
        let number = self.ring.push(LentTok::Break(brk), UNKNOWN);
        let note = Note { number, level: self.groups, delta };
        self.notes.add(note);
        self.acc = width;
    }
    /// Takes the begin of a group.
    #[inline(always)]
    fn scan_begin(&mut self, consistent: bool, offset: i8) {
        let number = self.ring.push(LentTok::Begin { consistent, offset }, UNKNOWN);
        let note = Note { number, level: self.groups, delta: self.acc };
        self.notes.add(note);
        self.acc = 0;
        self.groups += 1;
    }
    /// Takes the end of the innermost group. Measured widths go on past it.
    #[inline(always)]
    fn scan_end(&mut self) {
        let _ = self.ring.push(LentTok::End, 0);
        self.groups -= 1;
    }
    /// Ends all measured widths: no more tokens come.
    pub fn end_all(&mut self) {
        self.acc = close(&mut self.ring, &mut self.notes, self.acc, 0);
        self.ended = true;
    }
    /// Skips a number, for a token that is printed at once. Nothing may wait.
    #[inline(always)]
    pub fn pass(&mut self) {
        self.ring.pass();
    }
    /// Drops the oldest entry.
    #[inline(always)]
    pub fn drop_front(&mut self) {
        if let Some(entry) = self.ring.front() {
            let len = text_len(entry.tok);
            drop_note(&mut self.notes, entry.size);
            self.waiting -= len;
            self.ring.pop_front();
        }
    }
    /// Drops `count` texts at the front, which have `len` bytes together.
    #[inline(always)]
    pub fn drop_texts(&mut self, count: usize, len: usize) {
        self.ring.pop_texts(count, len);
        self.waiting -= len as u64;
    }
    /// Begins anew after the end: tokens may come again. Nothing may wait.
    pub fn restart(&mut self) {
        if self.ring.len() == 0 {
            self.ended = false;
        }
    }
}
