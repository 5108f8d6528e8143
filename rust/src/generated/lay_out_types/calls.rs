//! Made by scripts/rust.sh from crates/lay_out_types/src/calls.rt, which is proved: change that.
//!
//! The `add` functions of texts, words and token lists.
use crate::generated::lay_node::{Attr, Literal, MacroCall, Tokens};
use crate::generated::lay_out_tokens::{
    put_attr,
    put_call,
    put_enclosed,
    put_token,
    put_tokens,
    put_word,
};
use crate::generated::lay_piece::Delim;
use crate::generated::lay_stream::Emit;
use crate::generated::lay_text::Text;
/// Emits a text.
pub fn add_text<
    E: Emit,
>(out: &mut E, before: Result<(), E::Fault>, text: &[u8]) -> Result<(), E::Fault> {
    before?;
    out.text(text)
}
/// Emits a text, if `wanted`.
pub fn add_if<
    E: Emit,
>(
    out: &mut E,
    before: Result<(), E::Fault>,
    wanted: bool,
    text: &[u8],
) -> Result<(), E::Fault> {
    if wanted {
        return add_text(out, before, text);
    }
    before
}
/// Emits `if_first` if `first`, else `if_second`.
pub fn add_either<
    E: Emit,
>(
    out: &mut E,
    before: Result<(), E::Fault>,
    first: bool,
    if_first: &[u8],
    if_second: &[u8],
) -> Result<(), E::Fault> {
    if first {
        return add_text(out, before, if_first);
    }
    add_text(out, before, if_second)
}
/// Emits a word or a name.
pub fn add_word<
    E: Emit,
>(
    out: &mut E,
    before: Result<(), E::Fault>,
    raw: bool,
    text: &Text,
) -> Result<(), E::Fault> {
    before?;
    put_word(out, raw, text)
}
/// Emits a literal.
pub fn add_literal<
    E: Emit,
>(out: &mut E, before: Result<(), E::Fault>, literal: &Literal) -> Result<(), E::Fault> {
    before?;
    put_token(out, literal.kind, literal.text.as_bytes())
}
/// Emits a token list.
pub fn add_tokens<
    E: Emit,
>(out: &mut E, before: Result<(), E::Fault>, tokens: &Tokens) -> Result<(), E::Fault> {
    before?;
    put_tokens(out, tokens)
}
/// Emits a token list in braces.
pub fn add_braces<
    E: Emit,
>(out: &mut E, before: Result<(), E::Fault>, tokens: &Tokens) -> Result<(), E::Fault> {
    before?;
    put_enclosed(out, Delim::Brace, tokens)
}
/// Emits an attribute within other parts. After an outer one stands a blank, or a newline if it is
/// a line comment.
pub(crate) fn add_attr<
    E: Emit,
>(out: &mut E, before: Result<(), E::Fault>, attr: &Attr) -> Result<(), E::Fault> {
    before?;
    put_attr(out, attr, false)
}
/// Emits a macro call.
pub fn add_call<
    E: Emit,
>(out: &mut E, before: Result<(), E::Fault>, call: &MacroCall) -> Result<(), E::Fault> {
    before?;
    put_call(out, call)
}
