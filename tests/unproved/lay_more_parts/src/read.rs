//! The tests of the public calls that read: texts, inputs and sinks, tokens, delimiters, strings, trees, and the command's
//! words.
//!
//! A test holds what no clause says: rows worked out by hand from the rules, printed texts, boundary rows, and reads and
//! writes that fail. There is one module for each crate, named after it (`outside` for lay_io, `line` for lay_args, `pieces`
//! for the tokens of lay_lex that are told one by one). The rows of a table stand in one literal (lay_test_rows).

mod cook;
mod each;
mod lex;
mod line;
mod nest;
mod outside;
mod pieces;
mod token;
mod tree;
