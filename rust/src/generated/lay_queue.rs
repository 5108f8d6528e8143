//! Made by scripts/rust.sh from crates/lay_queue/src/lib.rt, which is proved: change that.
//!
//! The scanning half of the streaming printer: waiting tokens, with the sizes that are known of
//! them.
//!
//! A [`Queue`] takes the tokens of a layout. The size of a text is known at once. A `Begin` or a
//! break enters with an unknown size, and a [`Note`] of it is kept. A break ends the measured width
//! of all that was noted with at least as many groups open as now: so their sizes are set before
//! the break enters itself. The end of the stream ends all measured widths.
//!
//! `Scan` defines the size of an entry, and when it is known, without any of the sums that are kept
//! here.
mod close;
mod queue;
pub use close::Note;
pub use queue::{Queue, least_width};
