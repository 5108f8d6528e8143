//! Made by scripts/rust.sh from crates/lay_out_exprs/src/closures.rt, which is proved: change that.
//!
//! The layout of closures before their bodies.
use crate::generated::lay_code::ClosureParam;
use crate::generated::lay_out_heads::add_self_type;
use crate::generated::lay_out_pats::add_pat;
use crate::generated::lay_out_types::calls::add_if;
use crate::generated::lay_out_types::lists::{add_close, add_lead};
use crate::generated::lay_out_types::parts::add_param_attrs;
use crate::generated::lay_stream::Emit;
/// Emits the head of a closure: `async` and `move`, as the flags say, and the parameters.
pub fn add_closure_head<
    E: Emit,
>(
    out: &mut E,
    before: Result<(), E::Fault>,
    is_async: bool,
    moves: bool,
    params: &[ClosureParam],
) -> Result<(), E::Fault> {
    let word = add_if(out, before, is_async, b"async ");
    let words = add_if(out, word, moves, b"move ");
    add_params(out, words, params)
}
/// Emits parameters between bars, with a `,` between them.
fn add_params<
    E: Emit,
>(
    out: &mut E,
    before: Result<(), E::Fault>,
    params: &[ClosureParam],
) -> Result<(), E::Fault> {
    let mut done = before;
    for (index, param) in params.iter().enumerate() {
        done = add_lead(out, done, index == 0, b"|");
        done = add_param(out, done, param);
    }
    add_close(out, done, true, params.is_empty(), b"||", b"|")
}
/// Emits a parameter, with its attributes.
fn add_param<
    E: Emit,
>(
    out: &mut E,
    before: Result<(), E::Fault>,
    param: &ClosureParam,
) -> Result<(), E::Fault> {
    let attrs = add_param_attrs(out, before, param.attrs.as_slice());
    let pat = add_pat(out, attrs, &param.pat);
    add_self_type(out, pat, &param.ty)
}
