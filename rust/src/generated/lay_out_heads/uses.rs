//! Made by scripts/rust.sh from crates/lay_out_heads/src/uses.rt, which is proved: change that.
//!
//! The layout of use trees.
use crate::generated::lay_node::{GivenName, UseEnd, UseTree, Word};
use crate::generated::lay_out_types::calls::{add_if, add_text, add_word};
use crate::generated::lay_out_types::lists::{add_close, add_lead};
use crate::generated::lay_stream::Emit;
/// Emits the layout of a use tree.
pub fn put_use<E: Emit>(out: &mut E, tree: &UseTree) -> Result<(), E::Fault> {
    add_use(out, Ok(()), tree)
}
/// Emits a use tree.
fn add_use<
    E: Emit,
>(out: &mut E, before: Result<(), E::Fault>, tree: &UseTree) -> Result<(), E::Fault> {
    let global = add_if(out, before, tree.global, b"::");
    let words = add_words(out, global, tree.path.as_slice());
    add_use_end(out, words, &tree.end)
}
/// Emits the end of a use tree, after its path.
fn add_use_end<
    E: Emit,
>(out: &mut E, before: Result<(), E::Fault>, end: &UseEnd) -> Result<(), E::Fault> {
    match end {
        UseEnd::Word { word, rename } => {
            let word = add_word(out, before, word.raw, &word.text);
            add_rename(out, word, rename)
        }
        UseEnd::Glob => add_text(out, before, b"*"),
        UseEnd::Group { trees } => add_trees(out, before, trees.as_slice()),
    }
}
/// Emits use trees in braces.
fn add_trees<
    E: Emit,
>(out: &mut E, before: Result<(), E::Fault>, trees: &[UseTree]) -> Result<(), E::Fault> {
    let mut done = before;
    for (index, tree) in trees.iter().enumerate() {
        done = add_lead(out, done, index == 0, b"{");
        done = add_use(out, done, tree);
    }
    add_close(out, done, true, trees.is_empty(), b"{}", b"}")
}
/// Emits words, each with a `::` after it.
fn add_words<
    E: Emit,
>(out: &mut E, before: Result<(), E::Fault>, words: &[Word]) -> Result<(), E::Fault> {
    let mut done = before;
    for word in words {
        done = add_word(out, done, word.raw, &word.text);
        done = add_text(out, done, b"::");
    }
    done
}
/// Emits `as` and another name, or `as _`; nothing if the name isn't changed.
pub fn add_rename<
    E: Emit,
>(
    out: &mut E,
    before: Result<(), E::Fault>,
    rename: &Option<GivenName>,
) -> Result<(), E::Fault> {
    match rename {
        None => before,
        Some(rename) => {
            let sign = add_text(out, before, b" as ");
            match rename {
                GivenName::Underscore => add_text(out, sign, b"_"),
                GivenName::Name(name) => add_word(out, sign, name.raw, &name.text),
            }
        }
    }
}
