//! All rows of a table.

use std::alloc::Global;
use std::process::Abort;

/// Each row of a literal holds, rows that stand between these characters. The function is lent as a pointer.
pub fn each_holds(
    rt: &impl Abort,
    alloc: Global,
    rows: &str,
    between: char,
    holds: fn(Global, &str) -> bool,
)
    requires { IsAlwaysCallable holds }
{
    for row in rows.split(between) {
        assert!(rt; holds(alloc, row), "{row}");
    }
}
