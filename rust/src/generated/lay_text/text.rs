//! Made by scripts/rust.sh from crates/lay_text/src/text.rt, which is proved: change that.
//!
//! [`Text`], a growable byte string.
use crate::generated::lay_text::refusal::NoMemory;
use crate::shims::SmallVec;
use crate::shims::Global;
/// How many bytes a text keeps inline, without allocating.
const INLINE: usize = 22;
/// A byte string. Up to 22 bytes are kept inline, without allocating.
#[derive(Clone, PartialEq, Eq)]
pub struct Text {
    bytes: SmallVec<u8, 22>,
}
impl Text {
    /// The empty text.
    pub fn new(alloc: Global) -> Text {
        Text { bytes: SmallVec::new(alloc) }
    }
    /// A copy of the bytes. It allocates only for more than 22 bytes.
    #[inline(always)]
    pub fn from_bytes(alloc: Global, bytes: &[u8]) -> Result<Text, NoMemory> {
        match bytes {
            [byte] => {
                let mut text = Text::new(alloc);
                text.push(*byte)?;
                Ok(text)
            }
            _ if bytes.len() <= INLINE => Ok(Text::short(alloc, bytes)),
            _ => Text::long(alloc, bytes),
        }
    }
    /// A copy of at most 22 bytes.
    #[inline(always)]
    fn short(alloc: Global, bytes: &[u8]) -> Text {
        let mut copy = SmallVec::new(alloc);
        for byte in bytes {
            copy.push_reserved(*byte);
        }
        Text { bytes: copy }
    }
    /// A copy of the bytes, allocated with no spare room.
    fn long(alloc: Global, bytes: &[u8]) -> Result<Text, NoMemory> {
        let mut text = Text::new(alloc);
        text.bytes.reserve_exact(bytes.len())?;
        text.push_bytes(bytes)?;
        Ok(text)
    }
    /// Appends a byte. It doesn't allocate while the text has fewer than 22 bytes.
    #[inline]
    pub fn push(&mut self, byte: u8) -> Result<(), NoMemory> {
        match self.bytes.push(byte) {
            Ok(()) => Ok(()),
            Err(_) => Err(NoMemory),
        }
    }
    /// Appends bytes. It doesn't allocate if the text then has at most 22 bytes.
    pub fn push_bytes(&mut self, bytes: &[u8]) -> Result<(), NoMemory> {
        match self.bytes.extend_from_slice(bytes) {
            Ok(()) => Ok(()),
            Err(_) => Err(NoMemory),
        }
    }
    /// All bytes, as a slice.
    pub fn as_bytes(&self) -> &[u8] {
        self.bytes.as_slice()
    }
}
