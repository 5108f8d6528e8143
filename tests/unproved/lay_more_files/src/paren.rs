//! The tests of least parentheses.
//!
//! `trees` puts trees together that have no pair where one is lacking, and `rows` holds what is made of them, printed. `loose` tells
//! these trees from such as no pair mends.

mod loose;
mod rows;
mod trees;
