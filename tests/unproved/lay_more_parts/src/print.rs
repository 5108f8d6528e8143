//! The tests of the public calls that print: streams, the printer's ring, and the printers.
//!
//! `words` holds the words in which streams are written here.

mod printer;
mod ring;
mod stream;
mod words;
