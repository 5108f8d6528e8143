//! Tests of trees: which can be written, and which are equal. There are too many to prove each of their functions, so they are
//! run alone.
//!
//! `written` and `spoilt` hold trees that can be written and trees that can't, `same` pairs of them. `trees` builds them out
//! of parts that are read.
#![tactic(auto)]

#[cfg(test)]
mod same;
#[cfg(test)]
mod spoilt;
#[cfg(test)]
mod trees;
#[cfg(test)]
mod written;
