//! The tests of the calls over code, trees and files: `nodes` those of nodes by themselves,
//! `conditions` those of the links of conditions, `map` those of the map of places, `items` those
//! of edits, `paren` those of parentheses that are put in, and `build` those of files that are
//! built. `spoilt` is a table of trees that can't be written, each for one reason, and beside each
//! one that can, which differs from it in that alone (`made`); lay_more_trees holds more of them.
//!
//! They are run and not proved (`scripts/unproved_tests.sh`). One call of each public function is
//! proved, in lay_test_files.
#![tactic(auto)]

#[cfg(test)]
mod build;
#[cfg(test)]
mod conditions;
#[cfg(test)]
mod items;
#[cfg(test)]
mod made;
#[cfg(test)]
mod map;
#[cfg(test)]
mod nodes;
#[cfg(test)]
mod paren;
#[cfg(test)]
mod spoilt;
