//! What the tests of several crates share: how the rows of a table stand in one literal, copies and lists of bytes,
//! and the tokens of a text. `each` goes over the rows of a table.
#![tactic(auto)]

ghost use Rattle.std.specs.Prelude.{IfOk, IsUtf8};

pub mod each;

use lay_lex::{lex, normalise};
use lay_token::{FormatError, List, NoMemory, Token};
use std::alloc::Global;

/// Stands between the rows of one literal. It begins no token.
pub const BETWEEN: char = '§';

/// What a row gives and what is wanted of it, which stands behind `→`.
pub fn parts(row: &str) -> (&str, &str) {
    match row.split_once('→') {
        Some(both) => both,
        None => (row, "no arrow"),
    }
}

/// So many copies of the bytes.
pub fn repeated(alloc: Global, bytes: &[u8], count: usize) -> Result<Vec<u8>, NoMemory> {
    let mut all = Vec::new(alloc);
    for _ in 0..count {
        all.extend_from_slice(bytes)?;
    }
    Ok(all)
}

/// A list of these bytes.
pub fn list(alloc: Global, bytes: &[u8]) -> Result<List<u8>, NoMemory> {
    Ok(List::from_vec(bytes.to_vec(alloc)?))
}

/// The tokens of a text.
pub fn tokens(alloc: Global, text: &[u8]) -> Result<List<Token>, FormatError> {
    let source = normalise(alloc, text)?;
    lex(alloc, &source)
}
