//! Made by scripts/rust.sh from crates/lay_out_heads/src/calls.rt, which is proved: change that.
//!
//! The `add` functions of breaks, simple paths, generic parameters and where clauses.
use crate::generated::lay_layout::Break;
use crate::generated::lay_node::{Generics, SimplePath, Wheres};
use crate::generated::lay_out_tokens::put_simple_path;
use crate::generated::lay_out_types::{put_generics, put_wheres};
use crate::generated::lay_stream::Emit;
/// Emits a break.
pub fn add_break<
    E: Emit,
>(out: &mut E, before: Result<(), E::Fault>, token: Break) -> Result<(), E::Fault> {
    before?;
    out.brk(token)
}
/// Emits what begins the inside of braces, one step further in.
pub fn add_inside<
    E: Emit,
>(out: &mut E, before: Result<(), E::Fault>) -> Result<(), E::Fault> {
    before?;
    out.begin(true, 4)
}
/// Emits a simple path.
pub(crate) fn add_simple_path<
    E: Emit,
>(out: &mut E, before: Result<(), E::Fault>, path: &SimplePath) -> Result<(), E::Fault> {
    before?;
    put_simple_path(out, path)
}
/// Emits generic parameters.
pub fn add_generics<
    E: Emit,
>(
    out: &mut E,
    before: Result<(), E::Fault>,
    generics: &Generics,
) -> Result<(), E::Fault> {
    before?;
    put_generics(out, generics)
}
/// Emits a where clause: before a body, or else before a `;`.
pub fn add_wheres<
    E: Emit,
>(
    out: &mut E,
    before: Result<(), E::Fault>,
    wheres: &Wheres,
    body: bool,
) -> Result<(), E::Fault> {
    before?;
    put_wheres(out, wheres, body)
}
