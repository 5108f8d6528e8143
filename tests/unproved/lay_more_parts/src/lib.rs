//! The tests of the calls below code: `read` those that read texts, tokens and the command's words,
//! `print` those that print, `types` those that read and lay out types and patterns, and
//! `build_types` those that build names and types.
//!
//! They are run and not proved (`scripts/unproved_tests.sh`). One call of each public function is
//! proved, in lay_test_parts.
#![tactic(auto)]

#[cfg(test)]
mod build_types;
#[cfg(test)]
mod print;
#[cfg(test)]
mod read;
#[cfg(test)]
mod types;
