//! Made by scripts/rust.sh from crates/lay_front/src/stop.rt, which is proved: change that.
//!
//! Why a run ends before its work is done.
use crate::generated::lay_token::{Place2, Refusal};
/// Why a run ends before its work is done, with what its message says.
#[derive(Clone, Copy, Debug, PartialEq, Eq,)]
pub enum Stop {
    /// The words are no command line.
    Usage,
    /// A read failed.
    ReadFailed,
    /// The input holds more than 16 MiB.
    TooLong,
    /// The input has a syntax error at this place.
    Refused {
        refusal: Refusal,
        place: Place2,
    },
    /// A write failed.
    WriteFailed,
    /// The input isn't formatted.
    Differs,
    /// Memory could not be allocated.
    NoMemory,
}
