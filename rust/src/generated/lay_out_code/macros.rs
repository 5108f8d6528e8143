//! Made by scripts/rust.sh from crates/lay_out_code/src/macros.rt, which is proved: change that.
//!
//! The layout of macro calls and macro definitions as items.
use crate::generated::lay_out_code::calls::add_group;
use crate::generated::lay_code::{Group, MacroCall, Name};
use crate::generated::lay_out_types::calls::{add_call, add_text, add_word};
use crate::generated::lay_piece::Delim;
use crate::generated::lay_stream::Emit;
/// Emits a macro definition.
pub fn add_macro_rules<
    E: Emit,
>(
    out: &mut E,
    before: Result<(), E::Fault>,
    name: &Name,
    rules: &Group,
) -> Result<(), E::Fault> {
    let word = add_text(out, before, b"macro_rules! ");
    let name = add_word(out, word, name.raw, &name.text);
    let blank = add_before_rules(out, name, rules.delim);
    let group = add_group(out, blank, rules);
    add_item_end(out, group, rules.delim)
}
/// Emits the blank before rules in braces.
fn add_before_rules<
    E: Emit,
>(out: &mut E, before: Result<(), E::Fault>, delim: Delim) -> Result<(), E::Fault> {
    match delim {
        Delim::Brace => add_text(out, before, b" "),
        _ => before,
    }
}
/// Emits a macro call as an item.
pub fn add_call_item<
    E: Emit,
>(out: &mut E, before: Result<(), E::Fault>, call: &MacroCall) -> Result<(), E::Fault> {
    let group = add_call(out, before, call);
    add_item_end(out, group, call.tokens.delim)
}
/// Emits the end of an item after a group: nothing after braces, else a `;`.
fn add_item_end<
    E: Emit,
>(out: &mut E, before: Result<(), E::Fault>, delim: Delim) -> Result<(), E::Fault> {
    match delim {
        Delim::Brace => before,
        _ => add_text(out, before, b";"),
    }
}
