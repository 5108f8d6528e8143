//! The tests of runs of the command, and of texts of files.
//!
//! A test is a literal of rows. Each row asks something, and behind `⇒` stands what it is told; so
//! each test is one call, which is lent the function that tells (`each` of lay_test_rows).
//! `command` holds runs of the command (`runs`): its modes, its lines on `err`, reads and writes
//! that fail, and how deep and how long a text may be. `hostile` holds runs over inputs that are
//! cut off or malicious, and over reads and writes that fail in turn, and `memory` what is left
//! where memory is wanting. `texts` holds texts of files, from their bytes and from their trees,
//! and how deep files are, `samples` samples and their runs, `counts` the sink that counts. What
//! texts are laid out to, and which are refused, stands under `tests/cases`.
//!
//! They are run and not proved (`scripts/unproved_tests.sh`). One call of each public function is
//! proved, in lay_test_files.
#![tactic(auto)]

#[cfg(test)]
mod command;
#[cfg(test)]
mod counts;
#[cfg(test)]
mod hostile;
#[cfg(test)]
mod memory;
#[cfg(test)]
mod runs;
#[cfg(test)]
mod samples;
#[cfg(test)]
mod texts;
