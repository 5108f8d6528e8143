//! Made by scripts/rust.sh from crates/lay_out_tokens/src/tokens.rt, which is proved: change that.
//!
//! The layout of token lists and groups.
use crate::generated::lay_out_tokens::neighbours::kind_of;
use crate::generated::lay_out_tokens::notation::{
    CLOSING_HARD_BREAK,
    CLOSING_SOFT_BREAK,
    CLOSING_SPACE_BREAK,
    HARD_BREAK,
    SOFT_BREAK,
    SPACE_BREAK,
};
use crate::generated::lay_out_tokens::separation::{Seen, Separation, between};
use crate::generated::lay_out_tokens::told::Told;
use crate::generated::lay_out_tokens::words::{put_doc, put_token};
use crate::generated::lay_node::{Group, Listed, Tokens};
use crate::generated::lay_stream::Emit;
use crate::generated::lay_token::{Break, Delim, Kind};
/// Emits the layout of a token list.
pub fn put_tokens<E: Emit>(out: &mut E, tokens: &Tokens) -> Result<(), E::Fault> {
    out.begin(false, 4)?;
    let line = put_list(out, tokens.as_slice())?;
    out.end()?;
    put_list_end(out, line)
}
/// Emits a newline after a list, if it ends in a line comment.
fn put_list_end<E: Emit>(out: &mut E, line: bool) -> Result<(), E::Fault> {
    if line {
        return out.brk(HARD_BREAK);
    }
    Ok(())
}
/// Emits the layout of a group.
pub fn put_group<E: Emit>(out: &mut E, group: &Group) -> Result<(), E::Fault> {
    put_enclosed(out, group.delim, &group.tokens)
}
/// Emits the layout of a token list in delimiters, which is that of a group.
pub fn put_enclosed<
    E: Emit,
>(out: &mut E, delim: Delim, tokens: &Tokens) -> Result<(), E::Fault> {
    let tokens = tokens.as_slice();
    if tokens.is_empty() {
        return put_empty_group(out, delim);
    }
    put_full_group(out, delim, tokens)
}
/// Emits a group of these tokens.
fn put_full_group<
    E: Emit,
>(out: &mut E, delim: Delim, tokens: &[Listed]) -> Result<(), E::Fault> {
    open_group(out, delim)?;
    let line = put_list(out, tokens)?;
    close_group(out, delim, line)
}
/// Emits tokens whose delimiters are balanced, and says whether the last one is a line comment.
fn put_list<E: Emit>(out: &mut E, tokens: &[Listed]) -> Result<bool, E::Fault> {
    let mut seen = Seen::at_start(0);
    let mut rest = tokens;
    while let Some((token, more)) = rest.split_first() {
        let next = Told::single(token);
        put_next(out, &seen, token, &next, more)?;
        seen = seen.behind(token, next);
        rest = more;
    }
    Ok(seen.last.is_line_doc())
}
/// Emits one token, which others follow.
#[inline(always)]
fn put_next<
    E: Emit,
>(
    out: &mut E,
    seen: &Seen<'_>,
    token: &Listed,
    next: &Told<'_>,
    more: &[Listed],
) -> Result<(), E::Fault> {
    match kind_of(token) {
        Kind::Opener(delim) => put_opener(out, seen, delim, closes_at_once(more)),
        Kind::Closer(delim) => put_closer(out, seen, delim),
        _ => put_single(out, seen, token, next),
    }
}
/// Whether the next token is a closer.
fn closes_at_once(more: &[Listed]) -> bool {
    match more {
        [] => false,
        [first, ..] => is_closer(kind_of(first)),
    }
}
fn is_closer(kind: Kind) -> bool {
    matches!(kind, Kind::Closer(_))
}
/// Emits the opener of a group, or the whole of an empty group.
#[inline(always)]
fn put_opener<
    E: Emit,
>(out: &mut E, seen: &Seen<'_>, delim: Delim, empty: bool) -> Result<(), E::Fault> {
    put_gap(out, between(seen, &Told::enclosed(delim)))?;
    if empty {
        return put_empty_group(out, delim);
    }
    open_group(out, delim)
}
/// Emits the closer of a group, unless the group is empty.
#[inline(always)]
fn put_closer<
    E: Emit,
>(out: &mut E, seen: &Seen<'_>, delim: Delim) -> Result<(), E::Fault> {
    if seen.last.is_nothing() {
        return Ok(());
    }
    close_group(out, delim, seen.last.is_line_doc())
}
/// Emits a token that is no delimiter.
#[inline(always)]
fn put_single<
    E: Emit,
>(
    out: &mut E,
    seen: &Seen<'_>,
    token: &Listed,
    next: &Told<'_>,
) -> Result<(), E::Fault> {
    put_gap(out, between(seen, next))?;
    put_listed(out, token)
}
fn put_listed<E: Emit>(out: &mut E, token: &Listed) -> Result<(), E::Fault> {
    match token {
        Listed::Token { kind, text, .. } => put_token(out, *kind, text.as_bytes()),
        Listed::Doc { inner, text } => put_doc(out, *inner, text.as_bytes()),
    }
}
/// Emits what stands between two neighbours.
fn put_gap<E: Emit>(out: &mut E, separation: Separation) -> Result<(), E::Fault> {
    match separation {
        Separation::NoBreak => Ok(()),
        Separation::SoftBreak => out.brk(SPACE_BREAK),
        Separation::HardBreak => out.brk(HARD_BREAK),
    }
}
/// Emits an empty group, which is one text.
fn put_empty_group<E: Emit>(out: &mut E, delim: Delim) -> Result<(), E::Fault> {
    match delim {
        Delim::Paren => out.text(b"()"),
        Delim::Bracket => out.text(b"[]"),
        Delim::Brace => out.text(b"{}"),
    }
}
/// Opens a group that isn't empty.
fn open_group<E: Emit>(out: &mut E, delim: Delim) -> Result<(), E::Fault> {
    out.begin(true, 4)?;
    out.text(opening(delim))?;
    out.brk(opening_break(delim))?;
    out.begin(false, 0)
}
/// Closes a group that isn't empty; `line` says that its last token is a line comment.
fn close_group<E: Emit>(out: &mut E, delim: Delim, line: bool) -> Result<(), E::Fault> {
    out.end()?;
    out.brk(closing_break(delim, line))?;
    out.text(closing(delim))?;
    out.end()
}
fn opening(delim: Delim) -> &'static [u8] {
    match delim {
        Delim::Paren => b"(",
        Delim::Bracket => b"[",
        Delim::Brace => b"{",
    }
}
fn closing(delim: Delim) -> &'static [u8] {
    match delim {
        Delim::Paren => b")",
        Delim::Bracket => b"]",
        Delim::Brace => b"}",
    }
}
/// The break after an opener; inside braces it is a blank if it is no newline.
fn opening_break(delim: Delim) -> Break {
    match delim {
        Delim::Brace => SPACE_BREAK,
        _ => SOFT_BREAK,
    }
}
/// The break before a closer.
fn closing_break(delim: Delim, line: bool) -> Break {
    if line {
        return CLOSING_HARD_BREAK;
    }
    match delim {
        Delim::Brace => CLOSING_SPACE_BREAK,
        _ => CLOSING_SOFT_BREAK,
    }
}
