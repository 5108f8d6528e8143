//! Made by scripts/rust.sh from crates/lay_text/src/refusal.rt, which is proved: change that.
//!
//! The error types: why reading or formatting failed.
use crate::shims::{AllocError, AllocFailed};
/// Memory could not be allocated. It says nothing about the input.
#[derive(Clone, Copy, Debug, PartialEq, Eq)]
pub struct NoMemory;
impl From<AllocError> for NoMemory {
    fn from(_: AllocError) -> NoMemory {
        NoMemory
    }
}
impl<T> From<AllocFailed<T>> for NoMemory {
    fn from(_: AllocFailed<T>) -> NoMemory {
        NoMemory
    }
}
/// A syntax error: why an input is refused, and at which byte.
///
/// `at` is a byte offset from 0. For `NotUtf8` it counts in the input; for all others in the text
/// that is lexed, which has no byte order mark and one LF for each CR LF.
#[derive(Clone, Copy, Debug, PartialEq, Eq)]
pub enum Refusal {
    /// The input is not UTF-8; `at` is the length of its longest valid prefix.
    NotUtf8 {
        at: usize,
    },
    /// No token begins at this place.
    NoToken {
        at: usize,
    },
    /// The delimiter here has no partner.
    Unbalanced {
        at: usize,
    },
    /// The longest run of inner attributes and then items ends before the token here.
    NoItem {
        at: usize,
    },
}
/// Why a call that formats failed.
#[derive(Clone, Copy, Debug, PartialEq, Eq)]
pub enum FormatError {
    /// The input has a syntax error.
    Refused(Refusal),
    /// Memory could not be allocated.
    NoMemory,
}
