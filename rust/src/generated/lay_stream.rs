//! Made by scripts/rust.sh from crates/lay_stream/src/lib.rt, which is proved: change that.
//!
//! What a layout is fed to: the trait of printers, the line that a printer writes, and the slow
//! printer.
//!
//! [`Emit`] is implemented by every printer: it takes a layout token by token. [`Line`] is what
//! every printer writes to its sink. [`Stream`] keeps the tokens as a list, and [`plain`] gives the
//! text of that list: it measures each group and each break anew. The text is defined by
//! lay_layout, and the sinks come from lay_io.
pub mod emit;
pub mod line;
pub use emit::Emit;
pub use line::{Line, exceeds};
