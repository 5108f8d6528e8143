//! Made by scripts/rust.sh from crates/lay_files/src/streamed/stop.rt, which is proved: change that.
//!
//! Why laying out window by window stops.
use crate::generated::lay_read_tokens::ReadNone;
/// Why the stream of a file wasn't emitted completely.
#[derive(Debug,)]
pub enum NotPut<F> {
    /// The text can't be read window by window, which says nothing about it.
    NoReading,
    /// Memory could not be allocated.
    NoMemory,
    /// The `Emit` failed.
    Fault(F),
}
/// The cause, if nothing was read.
pub fn unread<F>(none: ReadNone) -> NotPut<F> {
    match none {
        ReadNone::NoReading => NotPut::NoReading,
        ReadNone::NoMemory => NotPut::NoMemory,
    }
}
/// The result of an emission, with its error as the cause.
pub fn told<F>(fed: Result<(), F>) -> Result<(), NotPut<F>> {
    match fed {
        Ok(()) => Ok(()),
        Err(fault) => Err(NotPut::Fault(fault)),
    }
}
