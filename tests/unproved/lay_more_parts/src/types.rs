//! The tests of the public calls that read and lay out types, patterns and what they are made of.
//!
//! Each row is a text and what it is printed as: it is lexed, read by a call at a depth, laid out and printed by the
//! slow printer. Where it isn't read, or tokens are left, it is printed as `no`.

mod kinds;
mod rows;
