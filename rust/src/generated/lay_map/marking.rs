//! Made by scripts/rust.sh from crates/lay_map/src/marking.rt, which is proved: change that.
//!
//! Matching of the tokens of a text against the tokens of a layout.
use crate::generated::lay_map::ahead::Ahead;
use crate::generated::lay_map::flags::Flags;
use crate::generated::lay_map::unit::Span;
use crate::generated::lay_map::walk::{Walk, one_more};
use crate::generated::lay_layout::Break;
use crate::generated::lay_text::{List, NoMemory};
use crate::shims::Global;
/// Where in documentation the layout is.
#[derive(Clone, Copy, Debug, PartialEq, Eq,)]
pub(crate) enum Within {
    /// Outside documentation.
    Code,
    /// In a line comment, or in the shebang line, up to the next break.
    Line,
    /// Before the text of a block comment.
    Block,
    /// Before the end of a block comment.
    End,
}
/// The beginning of documentation.
#[derive(Clone, Copy, Debug, PartialEq, Eq,)]
pub(crate) struct Opening {
    /// Whether it documents the item that it stands in.
    inner: bool,
    /// Whether it is a block comment.
    block: bool,
}
/// The walk over the tokens, and the pending part of the layout.
pub(crate) struct Marking<'a> {
    walk: Walk<'a>,
    /// The number of `{` that were fed in a row. The next word decides which of them are words.
    row: usize,
    /// Whether a text `,` was fed last. The next call decides whether it is a word.
    comma: bool,
    within: Within,
    /// Whether the `=>` of an arm was fed in the open group.
    arrow: bool,
    /// For each group around it, whether the `=>` of an arm was fed in that group.
    outer: Flags,
}
impl<'a> Marking<'a> {
    /// The state before anything is fed. `shebang` says that the first line is a shebang line,
    /// which has no tokens.
    pub(crate) fn new(alloc: Global, ahead: Ahead<'a>, shebang: bool) -> Marking<'a> {
        Marking {
            walk: Walk::new(alloc, ahead),
            row: 0,
            comma: false,
            within: if shebang { Within::Line } else { Within::Code },
            arrow: false,
            outer: Flags::new(alloc),
        }
    }
    /// Takes a text.
    pub(crate) fn text(&mut self, text: &[u8]) -> Result<(), NoMemory> {
        match self.within {
            Within::Code => {
                self.settle_comma()?;
                self.read(text)
            }
            Within::Line => Ok(()),
            Within::Block => {
                self.within = Within::End;
                Ok(())
            }
            Within::End => {
                self.within = Within::Code;
                Ok(())
            }
        }
    }
    /// Takes a break.
    pub(crate) fn brk(&mut self, token: Break) -> Result<(), NoMemory> {
        self.within = behind_line(self.within);
        self.comma = self.comma && !is_free(token, self.arrow);
        self.settle_comma()
    }
    /// Takes the begin of a group.
    pub(crate) fn begin(&mut self) -> Result<(), NoMemory> {
        self.settle_comma()?;
        self.outer.push(self.arrow)?;
        self.arrow = false;
        Ok(())
    }
    /// Takes the end of a group.
    pub(crate) fn end(&mut self) -> Result<(), NoMemory> {
        self.settle_comma()?;
        self.arrow = self.outer.top();
        self.outer.pop();
        Ok(())
    }
    /// The units that were found: nothing more is fed.
    pub(crate) fn into_units(self) -> Result<List<Span>, NoMemory> {
        let mut marking = self;
        marking.settle_comma()?;
        marking.settle(true)?;
        let Marking { walk, row: _, comma: _, within: _, arrow: _, outer: _ } = marking;
        Ok(walk.into_units())
    }
    /// Settles the pending `,`, if there is one, as a word.
    fn settle_comma(&mut self) -> Result<(), NoMemory> {
        if self.comma {
            self.comma = false;
            self.word(b',')?;
        }
        Ok(())
    }
    /// Settles the pending `{`s before the next word. `loose`: that word isn't a `;`, so `;` may
    /// stand between them.
    #[inline(always)]
    fn settle(&mut self, loose: bool) -> Result<(), NoMemory> {
        if self.row == 0 {
            return Ok(());
        }
        let row = self.row;
        self.row = 0;
        self.walk.place(row, loose)
    }
    /// Takes the token of a word that begins with this byte, and gives the length of its text in
    /// bytes.
    fn word(&mut self, byte: u8) -> Result<usize, NoMemory> {
        self.settle(byte != b';')?;
        self.walk.word(byte)
    }
    /// Takes a text outside documentation.
    fn read(&mut self, text: &[u8]) -> Result<(), NoMemory> {
        match opening_of(text) {
            Some(opening) => self.document(opening),
            None => self.read_code(text),
        }
    }
    /// Takes a text that begins no documentation.
    fn read_code(&mut self, text: &[u8]) -> Result<(), NoMemory> {
        if text == b"r#".as_slice() {
            return Ok(());
        }
        if text == b",".as_slice() {
            self.comma = true;
            return Ok(());
        }
        self.words(text)?;
        self.arrow = text == b" => ".as_slice() || self.arrow;
        Ok(())
    }
    /// Takes a text that begins documentation.
    fn document(&mut self, opening: Opening) -> Result<(), NoMemory> {
        self.settle(true)?;
        self.walk.docs(opening.inner)?;
        self.within = if opening.block { Within::Block } else { Within::Line };
        Ok(())
    }
    /// Takes the words of a text, with or without blanks between them.
    fn words(&mut self, text: &[u8]) -> Result<(), NoMemory> {
        let mut rest = text;
        while let Some((byte, behind)) = rest.split_first() {
            let length = self.begin_word(*byte)?;
            rest = skip(behind, length);
        }
        Ok(())
    }
    /// Takes the first byte of a word, and gives how many more bytes belong to the word.
    fn begin_word(&mut self, byte: u8) -> Result<usize, NoMemory> {
        if byte == b'{' {
            self.raise()?;
            return Ok(0);
        }
        if byte == b' ' {
            return Ok(0);
        }
        Ok(self.word(byte)?.saturating_sub(1))
    }
    /// Adds a pending `{`.
    fn raise(&mut self) -> Result<(), NoMemory> {
        self.row = one_more(self.row)?;
        Ok(())
    }
}
/// The bytes without the first `count`.
fn skip(bytes: &[u8], count: usize) -> &[u8] {
    &bytes[count.min(bytes.len())..]
}
/// Where in documentation the layout is after a break.
fn behind_line(within: Within) -> Within {
    match within {
        Within::Line => Within::Code,
        Within::Code | Within::Block | Within::End => within,
    }
}
/// Whether a `,` before the break is in no unit: after the last of several fields, or after an arm.
fn is_free(token: Break, arrow: bool) -> bool {
    token.blank == 65535 && (token.offset < 0 || arrow)
}
/// The kind of documentation comment that the text opens; `None` if it is no such opening mark.
fn opening_of(text: &[u8]) -> Option<Opening> {
    let inner = text == b"//!".as_slice() || text == b"/*!".as_slice();
    let block = text == b"/**".as_slice() || text == b"/*!".as_slice();
    if inner || block || text == b"///".as_slice() {
        Some(Opening { inner, block })
    } else { None }
}
