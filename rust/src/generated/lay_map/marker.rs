//! Made by scripts/rust.sh from crates/lay_map/src/marker.rt, which is proved: change that.
//!
//! The `Emit` that finds the units of a text from a layout.
use crate::generated::lay_map::ahead::Ahead;
use crate::generated::lay_map::marking::Marking;
use crate::generated::lay_map::unit::Span;
use crate::generated::lay_layout::Break;
use crate::generated::lay_stream::Emit;
use crate::generated::lay_text::{List, NoMemory};
use crate::shims::Global;
/// Finds the units of tokens from the layout of the node that they spell, which it is fed.
pub(crate) struct Marker<'a> {
    /// All the tokens.
    tokens: Ahead<'a>,
    /// Whether the first line is a shebang line.
    shebang: bool,
    marking: Marking<'a>,
    /// Whether a call has failed.
    failed: bool,
}
impl<'a> Marker<'a> {
    /// A marker that was fed nothing. `shebang` says that the first line is a shebang line.
    pub(crate) fn new(alloc: Global, tokens: Ahead<'a>, shebang: bool) -> Marker<'a> {
        Marker {
            tokens,
            shebang,
            marking: Marking::new(alloc, tokens, shebang),
            failed: false,
        }
    }
    /// The units that were found: nothing more is fed.
    pub(crate) fn into_units(self) -> Result<List<Span>, NoMemory> {
        let Marker { tokens: _, shebang: _, marking, failed: _ } = self;
        marking.into_units()
    }
    /// Notes whether a call has failed, and gives its result back.
    fn answer(&mut self, given: Result<(), NoMemory>) -> Result<(), NoMemory> {
        match given {
            Ok(()) => Ok(()),
            Err(NoMemory) => {
                self.failed = true;
                Err(NoMemory)
            }
        }
    }
}
impl<'a> Emit for Marker<'a> {
    type Fault = NoMemory;
    fn text(&mut self, text: &[u8]) -> Result<(), NoMemory> {
        let given = self.marking.text(text);
        self.answer(given)
    }
    fn brk(&mut self, token: Break) -> Result<(), NoMemory> {
        let given = self.marking.brk(token);
        self.answer(given)
    }
    fn begin(&mut self, consistent: bool, offset: i8) -> Result<(), NoMemory> {
        let given = self.marking.begin();
        self.answer(given)
    }
    fn end(&mut self) -> Result<(), NoMemory> {
        let given = self.marking.end();
        self.answer(given)
    }
}
