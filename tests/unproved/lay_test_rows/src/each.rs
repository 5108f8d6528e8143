//! The rows of a table, and the parts of a row.

use crate::BETWEEN;
use lay_token::NoMemory;
use std::alloc::Global;
use std::process::Abort;
use std::str;

/// Each row of a literal is told what stands behind its `⇒`, or nothing where there is none. The function that tells is lent as a
/// pointer.
pub fn each_is_told(
    rt: &impl Abort,
    alloc: Global,
    rows: &str,
    tell: fn(Global, &str) -> Result<String, NoMemory>,
) -> Result<(), NoMemory>
    requires { IsAlwaysCallable tell }
{
    for row in rows.split(BETWEEN) {
        let (asked, wanted) = cut(row, '⇒');
        assert_eq!(rt; tell(alloc, asked)?.as_str(), wanted, "{row}");
    }
    Ok(())
}

/// What stands before a sign and behind it: nothing where there is none.
pub fn cut(text: &str, sign: char) -> (&str, &str) {
    match text.split_once(sign) {
        Some(both) => both,
        None => (text, ""),
    }
}

/// The first column of a row, and those behind its `→`.
pub fn column(row: &str) -> (&str, &str) {
    cut(row, '→')
}

/// The number that a text spells, or 0.
pub fn number(text: &str) -> usize {
    match text.parse::<usize>() {
        Ok(number) => number,
        Err(_) => 0,
    }
}

/// A text of these bytes.
pub fn string(alloc: Global, bytes: &[u8]) -> Result<String, NoMemory> {
    match str::from_utf8(bytes) {
        Ok(text) => Ok(String::from_str(alloc, text)?),
        Err(_) => Ok(String::from_str(alloc, "no UTF-8")?),
    }
}
