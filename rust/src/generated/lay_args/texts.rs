//! Made by scripts/rust.sh from crates/lay_args/src/texts.rt, which is proved: change that.
//!
//! Words as UTF-8.
use crate::shims::Vec;
use crate::generated::lay_text::{NoMemory, Text};
use crate::shims::Global;
use core::str;
/// All words as `str`, or `None` if one isn't UTF-8.
pub fn texts(alloc: Global, words: &[Text]) -> Result<Option<Vec<&str>>, NoMemory> {
    let mut texts = Vec::new(alloc);
    for word in words {
        match text(word) {
            Some(text) => texts.push(text)?,
            None => return Ok(None),
        }
    }
    Ok(Some(texts))
}
/// A word as `str`, if it is UTF-8.
fn text(word: &Text) -> Option<&str> {
    match str::from_utf8(word.as_bytes()) {
        Ok(text) => Some(text),
        Err(_) => None,
    }
}
