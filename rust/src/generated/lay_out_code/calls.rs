//! Made by scripts/rust.sh from crates/lay_out_code/src/calls.rt, which is proved: change that.
//!
//! The `add` functions of attributes, groups, use trees and the items that consist of a head alone.
use crate::generated::lay_code::{
    Alias,
    Attr,
    Enum,
    ExternCrate,
    Group,
    Struct,
    Union,
    UseTree,
    Vis,
};
use crate::generated::lay_out_heads::{
    put_alias,
    put_enum,
    put_extern_crate,
    put_struct,
    put_union,
    put_use,
};
use crate::generated::lay_out_tokens::{put_bare_attr, put_group};
use crate::generated::lay_stream::Emit;
/// Emits an attribute, and nothing after it.
pub fn add_bare_attr<
    E: Emit,
>(out: &mut E, before: Result<(), E::Fault>, attr: &Attr) -> Result<(), E::Fault> {
    before?;
    put_bare_attr(out, attr)
}
/// Emits a group in its delimiters.
pub fn add_group<
    E: Emit,
>(out: &mut E, before: Result<(), E::Fault>, group: &Group) -> Result<(), E::Fault> {
    before?;
    put_group(out, group)
}
/// Emits a use tree.
pub fn add_use<
    E: Emit,
>(out: &mut E, before: Result<(), E::Fault>, tree: &UseTree) -> Result<(), E::Fault> {
    before?;
    put_use(out, tree)
}
/// Emits an `extern crate`.
pub fn add_extern_crate<
    E: Emit,
>(
    out: &mut E,
    before: Result<(), E::Fault>,
    vis: &Vis,
    node: &ExternCrate,
) -> Result<(), E::Fault> {
    before?;
    put_extern_crate(out, vis, node)
}
/// Emits a type alias, which is the same wherever it stands.
pub fn add_alias<
    E: Emit,
>(
    out: &mut E,
    before: Result<(), E::Fault>,
    vis: &Vis,
    node: &Alias,
) -> Result<(), E::Fault> {
    before?;
    put_alias(out, vis, node)
}
/// Emits a struct.
pub fn add_struct<
    E: Emit,
>(
    out: &mut E,
    before: Result<(), E::Fault>,
    vis: &Vis,
    node: &Struct,
) -> Result<(), E::Fault> {
    before?;
    put_struct(out, vis, node)
}
/// Emits a union.
pub fn add_union<
    E: Emit,
>(
    out: &mut E,
    before: Result<(), E::Fault>,
    vis: &Vis,
    node: &Union,
) -> Result<(), E::Fault> {
    before?;
    put_union(out, vis, node)
}
/// Emits an enumeration.
pub fn add_enum<
    E: Emit,
>(
    out: &mut E,
    before: Result<(), E::Fault>,
    vis: &Vis,
    node: &Enum,
) -> Result<(), E::Fault> {
    before?;
    put_enum(out, vis, node)
}
