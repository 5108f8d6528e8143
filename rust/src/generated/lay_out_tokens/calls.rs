//! Made by scripts/rust.sh from crates/lay_out_tokens/src/calls.rt, which is proved: change that.
//!
//! The layout of macro calls.
use crate::generated::lay_out_tokens::simple_paths::put_simple_path;
use crate::generated::lay_out_tokens::tokens::put_group;
use crate::generated::lay_node::MacroCall;
use crate::generated::lay_stream::Emit;
use crate::generated::lay_token::Delim;
/// Emits the layout of a macro call.
pub fn put_call<E: Emit>(out: &mut E, call: &MacroCall) -> Result<(), E::Fault> {
    put_simple_path(out, &call.path)?;
    put_bang(out, call.tokens.delim)?;
    put_group(out, &call.tokens)
}
/// Emits the `!` before a group in the delimiter.
fn put_bang<E: Emit>(out: &mut E, delim: Delim) -> Result<(), E::Fault> {
    match delim {
        Delim::Brace => out.text(b"! "),
        _ => out.text(b"!"),
    }
}
