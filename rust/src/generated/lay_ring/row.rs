//! Made by scripts/rust.sh from crates/lay_ring/src/row.rt, which is proved: change that.
//!
//! A queue of numbered entries, in little memory.
use crate::generated::lay_ring::bytes::Bytes;
use crate::generated::lay_ring::marks::Marks;
use crate::generated::lay_layout::Break;
use crate::generated::lay_text::NoMemory;
use crate::shims::Global;
/// A token that borrows its text.
#[derive(Clone, Copy, Debug,)]
pub enum LentTok<'a> {
    /// A text, written as it is.
    Text(&'a [u8]),
    /// A place where a line may be broken.
    Break(Break),
    /// A group begins.
    Begin {
        consistent: bool,
        offset: i8,
    },
    /// The innermost open group ends.
    End,
}
/// A waiting token and its size, borrowed. The size is negative while it is unknown.
#[derive(Clone, Copy, Debug,)]
pub struct LentEntry<'a> {
    pub tok: LentTok<'a>,
    pub size: i64,
}
/// Consecutive waiting texts, as one, and their number.
#[derive(Clone, Copy, Debug,)]
pub struct Texts<'a> {
    pub bytes: &'a [u8],
    pub count: usize,
}
/// The value of a size that isn't known yet.
pub const UNKNOWN: i64 = -1;
/// Once this many entries were taken, the full buffer is allocated for texts even if the first one
/// would do: with the first one, room has to be looked for before each token.
const MANY: u64 = 4096;
/// An entry's token without its text.
#[derive(Clone, Copy,)]
enum Kind {
    /// A text of this many bytes.
    Text(u8),
    Break(Break),
    Begin {
        consistent: bool,
        offset: i8,
    },
    End,
}
/// A token without its text, and its size, which is negative while it is unknown.
#[derive(Clone, Copy,)]
struct SmallEntry {
    kind: Kind,
    size: i64,
}
/// A queue of entries as a [`Ring`](crate::Ring), in little memory: each takes 24 bytes, and their
/// texts are in one buffer of 128 bytes, or of 1,024 once that is too small or many entries came.
/// Texts are copied, and only `new` and `reserve` allocate. A text has at most 89 bytes.
pub struct Row {
    entries: Marks<SmallEntry>,
    /// The number of the first entry.
    number: u64,
    /// The texts of the entries, one after the other.
    bytes: Bytes,
}
impl Row {
    /// An empty row. The first entry will have the number 0.
    pub fn new(alloc: Global) -> Result<Row, NoMemory> {
        let entries = Marks::new(alloc, 0)?;
        let bytes = Bytes::new(alloc)?;
        Ok(Row { entries, number: 0, bytes })
    }
    /// Adds an entry at the back and gives its number. There must be room for it. Its text is
    /// copied.
    #[inline(always)]
    pub fn push(&mut self, tok: LentTok<'_>, size: i64) -> u64 {
        let number = self.number.wrapping_add(self.entries.len() as u64);
        let kind = kind_of(tok);
        self.bytes.add(text_of(tok));
        self.entries.add(SmallEntry { kind, size });
        number
    }
    /// Sets the size of the entry with this number, which must be in the row with an unknown size.
    #[inline(always)]
    pub fn size_at(&mut self, number: u64, size: u64) {
        let place = number.wrapping_sub(self.number) as usize;
        if let Some(small) = self.entries.get(place) {
            let kind = small.kind;
            let size = size as i64;
            self.entries.set(place, SmallEntry { kind, size });
        }
    }
    /// The first entry.
    #[inline(always)]
    pub fn front(&self) -> Option<LentEntry<'_>> {
        let small = self.entries.get(0)?;
        let tok = lend(small.kind, &self.bytes);
        Some(LentEntry { tok, size: small.size })
    }
    /// The texts at the front, up to the first entry that is none, as one.
    #[inline(always)]
    pub fn texts(&self) -> Texts<'_> {
        let (held, all) = (self.entries.len(), self.bytes.len());
        let (mut count, mut len) = (0, 0);
        while count < held {
            let more = match text_at(&self.entries, count) {
                Some(more) => more,
                _ => {
                    break;
                }
            };
            debug_assert!(len <= all);
            count += 1;
            len += more;
        }
        Texts { bytes: self.bytes.front(len), count }
    }
    /// Drops `count` texts at the front, which have `len` bytes together.
    #[inline(always)]
    pub fn pop_texts(&mut self, count: usize, len: usize) {
        self.entries.drop_oldest(count);
        self.bytes.drop_front(len);
        self.number = self.number.wrapping_add(count as u64);
    }
    /// Drops the first entry. The number of the first one is then one more.
    #[inline(always)]
    pub fn pop_front(&mut self) {
        if let Some(small) = self.entries.pop_oldest() {
            if let Kind::Text(len) = small.kind {
                self.bytes.drop_front(len as usize);
            }
            self.number = self.number.wrapping_add(1);
        }
    }
    /// Skips a number, for an entry that isn't kept. The row must be empty.
    #[inline(always)]
    pub fn pass(&mut self) {
        self.number = self.number.wrapping_add(1);
    }
    /// How many entries there are.
    #[inline(always)]
    pub fn len(&self) -> usize {
        self.entries.len()
    }
    /// Makes room for `n` more entries.
    #[inline(always)]
    pub fn reserve(&mut self, n: usize) -> Result<(), NoMemory> {
        self.entries.reserve(n)?;
        if n > self.spare() {
            return self.bytes.grow();
        }
        if self.number >= MANY {
            let _ = self.bytes.grow();
        }
        Ok(())
    }
    /// How many more entries there is room for.
    #[inline(always)]
    pub fn spare(&self) -> usize {
        self.bytes.room_for(self.entries.spare())
    }
}
/// The text of a token, which is empty where it has none.
#[inline(always)]
fn text_of<'a>(tok: LentTok<'a>) -> &'a [u8] {
    match tok {
        LentTok::Text(text) => text,
        _ => &[],
    }
}
/// The token without its text.
#[inline(always)]
fn kind_of(tok: LentTok<'_>) -> Kind {
    match tok {
        LentTok::Text(text) => Kind::Text(text.len() as u8),
        LentTok::Break(brk) => Kind::Break(brk),
        LentTok::Begin { consistent, offset } => Kind::Begin { consistent, offset },
        LentTok::End => Kind::End,
    }
}
/// The token of this kind; its text is the first of the bytes.
#[inline(always)]
fn lend<'a>(kind: Kind, bytes: &'a Bytes) -> LentTok<'a> {
    match kind {
        Kind::Text(len) => LentTok::Text(bytes.front(len as usize)),
        Kind::Break(brk) => LentTok::Break(brk),
        Kind::Begin { consistent, offset } => LentTok::Begin { consistent, offset },
        Kind::End => LentTok::End,
    }
}
/// The length in bytes of the text with this index, if the entry is a text.
#[inline(always)]
fn text_at(entries: &Marks<SmallEntry>, place: usize) -> Option<usize> {
    let small = entries.get(place)?;
    match small.kind {
        Kind::Text(len) => Some(len as usize),
        _ => None,
    }
}
