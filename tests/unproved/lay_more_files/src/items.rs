//! The tests of edits of items.
//!
//! `edits` holds rows of calls, each with what they answer, and `chance` 500 edits that a seed draws, behind each of which all is compared
//! with the text that the file has when it is put together anew.

mod chance;
mod edits;
