//! Made by scripts/rust.sh from crates/lay_printer/src/press.rt, which is proved: change that.
//!
//! Printers: one that borrows its sink, and one that owns it.
use crate::generated::lay_printer::engine::PrintError;
use crate::generated::lay_printer::printer::Core;
use crate::generated::lay_io::Sink;
use crate::generated::lay_layout::Break;
use crate::generated::lay_stream::Emit;
use crate::generated::lay_text::{NoMemory, Text};
use crate::shims::Global;
/// A printer that borrows its core and its sink, so the sink may be one that was passed by
/// reference. Its memory is that of the [`Core`].
pub struct Press<'p, K: Sink> {
    core: &'p mut Core,
    sink: &'p mut K,
}
impl<'p, K: Sink> Press<'p, K> {
    /// A printer in the state of the core, over the sink.
    pub fn new(core: &'p mut Core, sink: &'p mut K) -> Press<'p, K> {
        Press { core, sink }
    }
    /// Prints the rest: no more tokens come. No group may be open, unless a call has failed.
    pub fn finish(&mut self) -> Result<(), PrintError> {
        self.core.finish(self.sink)
    }
    /// Takes a text by value. If there is room for a token, it doesn't allocate.
    pub fn text_owned(&mut self, text: Text) -> Result<(), PrintError> {
        self.core.text_owned(self.sink, text)
    }
    /// How many groups are open. `end` requires at least one, `finish` none.
    pub fn open_groups(&self) -> u64 {
        self.core.open_groups()
    }
    /// How many bytes of text were taken and aren't in the sink yet: at most as many as fit in the
    /// space that is left.
    pub fn waiting(&self) -> usize {
        self.core.waiting()
    }
    /// The columns that are left on the line, at least -2^62.
    pub fn space(&self) -> i64 {
        self.core.space()
    }
    /// How many more tokens fit without allocating.
    pub fn spare(&self) -> usize {
        self.core.spare()
    }
    /// Makes room for `n` more tokens, and changes nothing else. After `NoMemory` nothing is
    /// changed.
    pub fn reserve(&mut self, n: usize) -> Result<(), NoMemory> {
        self.core.reserve(n)
    }
}
impl<'p, K: Sink> Emit for Press<'p, K> {
    type Fault = PrintError;
    fn text(&mut self, text: &[u8]) -> Result<(), PrintError> {
        self.core.text(self.sink, text)
    }
    fn brk(&mut self, token: Break) -> Result<(), PrintError> {
        self.core.brk(self.sink, token)
    }
    fn begin(&mut self, consistent: bool, offset: i8) -> Result<(), PrintError> {
        self.core.begin(self.sink, consistent, offset)
    }
    fn end(&mut self) -> Result<(), PrintError> {
        self.core.end(self.sink)
    }
}
/// A printer that owns its sink. Contracts see its core and its sink.
pub struct Printer<K: Sink> {
    core: Core,
    sink: K,
}
/// The error of a printer, and its sink.
pub struct PrintFault<K> {
    pub error: PrintError,
    pub sink: K,
}
impl<K: Sink> Printer<K> {
    /// A printer that has taken no token. `Err` gives the sink back if memory is out.
    pub fn new(alloc: Global, sink: K) -> Result<Printer<K>, K> {
        match Core::new(alloc) {
            Ok(core) => Ok(Printer { core, sink }),
            Err(NoMemory) => Err(sink),
        }
    }
    /// Prints the rest, since no more tokens come, and gives the sink back. No group may be open,
    /// unless a call has failed.
    pub fn finish(self) -> Result<K, PrintFault<K>> {
        let Printer { mut core, mut sink } = self;
        match core.finish(&mut sink) {
            Ok(()) => Ok(sink),
            Err(error) => Err(PrintFault { error, sink }),
        }
    }
    /// Takes a text by value. If there is room for a token, it doesn't allocate.
    pub fn text_owned(&mut self, text: Text) -> Result<(), PrintError> {
        self.core.text_owned(&mut self.sink, text)
    }
    /// How many groups are open. `end` requires at least one, `finish` none.
    pub fn open_groups(&self) -> u64 {
        self.core.open_groups()
    }
    /// How many bytes of text were taken and aren't in the sink yet: at most as many as fit in the
    /// space that is left.
    pub fn waiting(&self) -> usize {
        self.core.waiting()
    }
    /// The columns that are left on the line, at least -2^62.
    pub fn space(&self) -> i64 {
        self.core.space()
    }
    /// How many more tokens fit without allocating.
    pub fn spare(&self) -> usize {
        self.core.spare()
    }
    /// Makes room for `n` more tokens, and changes nothing else. After `NoMemory` nothing is
    /// changed.
    pub fn reserve(&mut self, n: usize) -> Result<(), NoMemory> {
        self.core.reserve(n)
    }
}
impl<K: Sink> Emit for Printer<K> {
    type Fault = PrintError;
    fn text(&mut self, text: &[u8]) -> Result<(), PrintError> {
        self.core.text(&mut self.sink, text)
    }
    fn brk(&mut self, token: Break) -> Result<(), PrintError> {
        self.core.brk(&mut self.sink, token)
    }
    fn begin(&mut self, consistent: bool, offset: i8) -> Result<(), PrintError> {
        self.core.begin(&mut self.sink, consistent, offset)
    }
    fn end(&mut self) -> Result<(), PrintError> {
        self.core.end(&mut self.sink)
    }
}
