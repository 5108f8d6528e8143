//! Made by scripts/rust.sh from crates/lay_stream/src/emit.rt, which is proved: change that.
//!
//! The trait of what a layout is fed to: printers, and lists of tokens.
use crate::generated::lay_layout::Break;
/// Takes a layout, token by token.
pub trait Emit {
    /// The error of a call.
    type Fault;
    /// Takes a text.
    fn text(&mut self, text: &[u8]) -> Result<(), Self::Fault>;
    /// Takes a break.
    fn brk(&mut self, token: Break) -> Result<(), Self::Fault>;
    /// Begins a group.
    fn begin(&mut self, consistent: bool, offset: i8) -> Result<(), Self::Fault>;
    /// Ends the innermost open group.
    fn end(&mut self) -> Result<(), Self::Fault>;
}
