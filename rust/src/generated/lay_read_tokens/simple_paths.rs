//! Made by scripts/rust.sh from crates/lay_read_tokens/src/simple_paths.rt, which is proved: change that.
//!
//! Parsing of simple paths.
use crate::generated::lay_read_tokens::ahead::Ahead;
use crate::generated::lay_read_tokens::front::{is_at_colons, pass_two, takes_colons};
use crate::generated::lay_read_tokens::names::read_word;
use crate::generated::lay_read_tokens::stop::{ReadNone, keep};
use crate::generated::lay_node::{SimplePath, Word};
use crate::generated::lay_token::List;
use crate::shims::Global;
/// Parses a simple path.
pub fn read_simple_path(
    alloc: Global,
    at: &mut Ahead<'_>,
) -> Result<SimplePath, ReadNone> {
    let global = takes_colons(at);
    let first = read_word(alloc, at)?;
    let words = read_words(alloc, at, first)?;
    Ok(SimplePath { global, words })
}
/// Parses the words of a simple path after the word `first`, each with a `::` before it, and gives
/// all of them.
fn read_words(
    alloc: Global,
    at: &mut Ahead<'_>,
    first: Word,
) -> Result<List<Word>, ReadNone> {
    let mut words = List::new(alloc);
    keep(&mut words, first)?;
    while is_at_colons(at) {
        let word = read_further_word(alloc, at)?;
        keep(&mut words, word)?;
    }
    Ok(words)
}
/// Parses a `::` and a word.
fn read_further_word(alloc: Global, at: &mut Ahead<'_>) -> Result<Word, ReadNone> {
    pass_two(at);
    read_word(alloc, at)
}
