//! Made by scripts/rust.sh from crates/lay_read_tokens/src/calls.rt, which is proved: change that.
//!
//! Parsing of macro calls.
use crate::generated::lay_read_tokens::ahead::Ahead;
use crate::generated::lay_read_tokens::front::{takes_mark, takes_op};
use crate::generated::lay_read_tokens::simple_paths::read_simple_path;
use crate::generated::lay_read_tokens::stop::ReadNone;
use crate::generated::lay_read_tokens::tokens::read_group;
use crate::generated::lay_nest::Cursor;
use crate::generated::lay_node::MacroCall;
use crate::generated::lay_token::Delim;
use crate::shims::Global;
/// Parses the next macro call. On an error the cursor doesn't move.
pub fn read_call(alloc: Global, at: &mut Cursor<'_>) -> Result<MacroCall, ReadNone> {
    let mut ahead = Ahead::new(at.fork());
    let call = call_ahead(alloc, &mut ahead)?;
    *at = ahead.into_cursor();
    Ok(call)
}
/// Parses the next macro call. After an error the cursor may be anywhere.
pub fn call_ahead(alloc: Global, at: &mut Ahead<'_>) -> Result<MacroCall, ReadNone> {
    let path = read_simple_path(alloc, at)?;
    if !takes_op(at, b"!") {
        return Err(ReadNone::NoReading);
    }
    let tokens = read_group(alloc, at)?;
    Ok(MacroCall { path, tokens })
}
/// Moves past the end of an item that is a macro call or a macro definition: after braces nothing,
/// else a `;`. Says whether it was there.
pub fn takes_end(at: &mut Ahead<'_>, delim: Delim) -> bool {
    match delim {
        Delim::Paren => takes_mark(at, b";"),
        Delim::Bracket => takes_mark(at, b";"),
        Delim::Brace => true,
    }
}
