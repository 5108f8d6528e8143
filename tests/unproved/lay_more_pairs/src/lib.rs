//! Least parentheses, tried on all small trees: what is made stands in its place by its text, and not without any one of its pairs.
//! There are too many trees to prove a function of each, so they are run alone.
//!
//! `shapes` puts trees together, out of nodes that are read from texts, and `places` puts them into files. `tried` asks what is made of
//! each.
#![tactic(auto)]

pub mod places;
pub mod shapes;
pub mod tried;

#[cfg(test)]
mod all;
