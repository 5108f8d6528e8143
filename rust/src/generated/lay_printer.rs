//! Made by scripts/rust.sh from crates/lay_printer/src/lib.rt, which is proved: change that.
//!
//! The streaming printer: it lays out tokens as they come, and writes to a sink as soon as it can.
//!
//! The algorithm is Oppen's ("Prettyprinting", TOPLAS 2(4), 1980). A layout is a list of tokens:
//! texts, breaks where a line may be broken, and the begins and ends of groups. Whether a group or
//! a break is laid out flat depends on its measured width: how many columns are needed from it up
//! to the next place where a line may be broken, past the end of the group. So a token can't be
//! printed before enough of what follows has been seen; but the text that waits is never longer
//! than a line.
//!
//! Two halves work on a row of entries, each a token with its size. The scanning half, lay_queue,
//! takes tokens, and sets their sizes when their measured widths end. The printing half ([`page`])
//! puts tokens on the current line ([`Line`](lay_stream::Line)) and keeps the frames of the open
//! groups ([`frames`]).
//!
//! The two meet at the first entry of the row ([`engine`]). After each token that may decide it,
//! entries are printed as long as it is decided whether they fit; consecutive texts are printed at
//! once. A known size decides. If the size of the first entry is unknown, but its own width with
//! the text that waits is greater than the space that is left, then it won't fit, whatever comes:
//! it is forced, that is, printed as one that doesn't fit. So no more text waits than fits in the
//! space, and at the end of the stream every size is known. While nothing waits, a text goes
//! straight to the line, and so does a break for which nothing that follows matters; they only take
//! a number. A text that is longer than any line decides everything that waits: that is printed,
//! and then the text, which is never copied.
//!
//! A [`Core`] is an engine that remembers whether a call has failed: then each later call gives the
//! same error and leaves the sink as it is. [`Press`] borrows a core and a sink, so the sink may be
//! one that was passed by reference. [`Printer`] owns both. The theorems in [`laws`] say what holds
//! at every moment: the sink has grown by what the printed tokens show, whatever follows; sizes are
//! measured widths; no blank stands at the end of a line but a text's own. After a call that failed
//! the sink has grown by a prefix of the text.
mod engine;
mod frames;
pub mod laws;
mod page;
mod press;
mod printer;
pub use engine::PrintError;
pub use press::{Press, PrintFault, Printer};
pub use printer::Core;
