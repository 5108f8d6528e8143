//! Trees that can't be written, each for one reason, and beside each one that can, which differs from it in that alone.

use crate::trees::{equal, written};
use lay_test_rows::{BETWEEN, parts};
use lay_tree::File;
use std::alloc::Global;
use std::process::Abort;

mod attributes;
mod exprs;
mod files;
mod items;
mod lists;
mod literals;
mod names;
mod operators;
mod patterns;
mod statements;
mod types;

/// Stands between the parts of a row of which each breaks the row's condition.
const OTHER: char = '¶';

/// Stands between two things that a tree is made of.
const BESIDE: char = '·';

/// In each row of a literal stand a condition, what a file is made of that can be written, and what files are made of that
/// break the condition, and so can't be written.
fn each_spoils(rt: &impl Abort, alloc: Global, rows: &str, make: fn(Global, &str) -> Option<File>)
    requires { IsAlwaysCallable make }
{
    for row in rows.split(BETWEEN) {
        let (condition, rest) = parts(row);
        let (whole, broken) = parts(rest);
        let answer = written(alloc, make(alloc, whole));
        assert_eq!(rt; answer, Some(true), "{condition}: {whole}");
        for spoilt in broken.split(OTHER) {
            let answer = written(alloc, make(alloc, spoilt));
            assert_eq!(rt; answer, Some(false), "{condition}: {spoilt}");
            let answer = equal(make(alloc, whole), make(alloc, spoilt));
            assert_eq!(rt; answer, Some(false), "{condition}: {whole} and {spoilt}");
        }
    }
}
