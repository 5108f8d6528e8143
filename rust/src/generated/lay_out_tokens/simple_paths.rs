//! Made by scripts/rust.sh from crates/lay_out_tokens/src/simple_paths.rt, which is proved: change that.
//!
//! The layout of simple paths.
use crate::generated::lay_out_tokens::words::put_word;
use crate::generated::lay_node::{SimplePath, Word};
use crate::generated::lay_stream::Emit;
/// Emits a simple path.
pub fn put_simple_path<E: Emit>(out: &mut E, path: &SimplePath) -> Result<(), E::Fault> {
    put_global(out, path.global)?;
    put_words(out, path.words.as_slice())
}
/// Emits the `::` that a path may begin with.
pub fn put_global<E: Emit>(out: &mut E, global: bool) -> Result<(), E::Fault> {
    if global {
        return out.text(b"::");
    }
    Ok(())
}
/// Emits words, with a `::` between them.
fn put_words<E: Emit>(out: &mut E, words: &[Word]) -> Result<(), E::Fault> {
    match words {
        [] => Ok(()),
        [first, rest @ ..] => put_joined(out, first, rest),
    }
}
/// Emits a word, and others after it.
fn put_joined<
    E: Emit,
>(out: &mut E, first: &Word, rest: &[Word]) -> Result<(), E::Fault> {
    put_word(out, first.raw, &first.text)?;
    put_further_words(out, rest)
}
/// Emits words, each with a `::` before it.
fn put_further_words<E: Emit>(out: &mut E, words: &[Word]) -> Result<(), E::Fault> {
    for word in words {
        out.text(b"::")?;
        put_word(out, word.raw, &word.text)?;
    }
    Ok(())
}
