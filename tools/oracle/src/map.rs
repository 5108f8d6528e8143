//! The map: where what a source says stands in it, and where in its text.
//!
//! The readers note each token that says nothing of the tree as they take it: a comma that may be left out, a `;` that ends nothing, a
//! brace of a body that isn't in the tree. All other tokens are units, each by itself, and so is an attribute that is documentation.

use crate::lex::lex;
use crate::nest::nest;
use crate::refuse::{out, read_units, Refusal};
use crate::source::normalise;

/// The place and the length of each unit of a source, and the text of its file.
pub fn units(bytes: &[u8]) -> Result<(Vec<(usize, usize)>, String), Refusal> {
    let src = normalise(bytes).map_err(Refusal::NotUtf8)?;
    let toks = lex(&src.text, src.start).map_err(Refusal::NoToken)?;
    let partner = nest(&toks).map_err(Refusal::Unbalanced)?;
    let (file, units) = read_units(&toks, &partner, src.shebang.clone()).map_err(Refusal::NoItem)?;
    Ok((units, out(&file)))
}

/// A line for each unit of the bytes and the unit of their text that has the same number.
pub fn map(bytes: &[u8]) -> Result<String, Refusal> {
    let (source, text) = units(bytes)?;
    let (output, again) = units(text.as_bytes()).expect("a text reads back");
    assert_eq!(text, again, "a text is its own");
    assert_eq!(source.len(), output.len(), "a source and its text have as many units");
    let lines = source.iter().zip(&output).map(|((at, len), (to, long))| format!("{at}+{len} {to}+{long}\n"));
    Ok(lines.collect())
}
