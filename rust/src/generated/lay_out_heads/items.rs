//! Made by scripts/rust.sh from crates/lay_out_heads/src/items.rt, which is proved: change that.
//!
//! The layout of items that consist of a head alone, with their visibilities.
use crate::generated::lay_out_heads::calls::add_wheres;
use crate::generated::lay_out_heads::heads::add_called;
use crate::generated::lay_out_heads::loops::{Part, add_braces, add_parens};
use crate::generated::lay_out_heads::uses::add_rename;
use crate::generated::lay_out_heads::vis::add_vis;
use crate::generated::lay_node::{
    Alias,
    Enum,
    ExternCrate,
    Fields,
    Struct,
    Union,
    Vis,
    Wheres,
};
use crate::generated::lay_out_pats::add_group;
use crate::generated::lay_out_types::calls::{add_text, add_word};
use crate::generated::lay_out_types::lists::add_end;
use crate::generated::lay_out_types::{add_asked, add_default};
use crate::generated::lay_stream::Emit;
/// Emits the layout of a struct.
pub fn put_struct<
    E: Emit,
>(out: &mut E, vis: &Vis, node: &Struct) -> Result<(), E::Fault> {
    let opened = open_head(out, Ok(()), vis);
    let head = add_struct_head(out, opened, node);
    let end = add_end(out, head);
    add_struct_tail(out, end, node)
}
/// Opens the group of a head, and emits the visibility before the head.
pub fn open_head<
    E: Emit,
>(out: &mut E, before: Result<(), E::Fault>, vis: &Vis) -> Result<(), E::Fault> {
    let group = add_group(out, before);
    add_vis(out, group, vis)
}
/// Emits the head of a struct.
fn add_struct_head<
    E: Emit,
>(out: &mut E, before: Result<(), E::Fault>, node: &Struct) -> Result<(), E::Fault> {
    let name = add_called(out, before, b"struct ", &node.name, &node.generics);
    add_head_fields(out, name, &node.fields)
}
/// Emits fields without names.
fn add_head_fields<
    E: Emit,
>(out: &mut E, before: Result<(), E::Fault>, fields: &Fields) -> Result<(), E::Fault> {
    match fields {
        Fields::Tuple { fields } => add_parens(out, before, fields.as_slice(), true),
        _ => before,
    }
}
/// Emits the rest of a struct.
fn add_struct_tail<
    E: Emit,
>(out: &mut E, before: Result<(), E::Fault>, node: &Struct) -> Result<(), E::Fault> {
    match &node.fields {
        Fields::Named { fields } => {
            add_body(out, before, &node.wheres, fields.as_slice())
        }
        _ => add_semicolon(out, before, &node.wheres),
    }
}
/// Emits a where clause, and parts in braces. After a where clause the braces have no leading
/// blank.
fn add_body<
    E: Emit,
    P: Part,
>(
    out: &mut E,
    before: Result<(), E::Fault>,
    wheres: &Wheres,
    parts: &[P],
) -> Result<(), E::Fault> {
    let clause = add_wheres(out, before, wheres, true);
    add_braces(out, clause, parts, leads(wheres))
}
/// Whether the braces after this where clause have a leading blank: if it has no predicates.
pub fn leads(wheres: &Wheres) -> bool {
    wheres.predicates.as_slice().is_empty()
}
/// Emits a where clause, and a `;`.
pub fn add_semicolon<
    E: Emit,
>(out: &mut E, before: Result<(), E::Fault>, wheres: &Wheres) -> Result<(), E::Fault> {
    let clause = add_wheres(out, before, wheres, false);
    add_text(out, clause, b";")
}
/// Emits the layout of a union.
pub fn put_union<E: Emit>(out: &mut E, vis: &Vis, node: &Union) -> Result<(), E::Fault> {
    let opened = open_head(out, Ok(()), vis);
    let head = add_called(out, opened, b"union ", &node.name, &node.generics);
    let end = add_end(out, head);
    add_body(out, end, &node.wheres, node.fields.as_slice())
}
/// Emits the layout of an enumeration.
pub fn put_enum<E: Emit>(out: &mut E, vis: &Vis, node: &Enum) -> Result<(), E::Fault> {
    let opened = open_head(out, Ok(()), vis);
    let head = add_called(out, opened, b"enum ", &node.name, &node.generics);
    let end = add_end(out, head);
    add_body(out, end, &node.wheres, node.variants.as_slice())
}
/// Emits the layout of a type alias, which is the same wherever it stands.
pub fn put_alias<E: Emit>(out: &mut E, vis: &Vis, node: &Alias) -> Result<(), E::Fault> {
    let opened = open_head(out, Ok(()), vis);
    let name = add_called(out, opened, b"type ", &node.name, &node.generics);
    let bounds = add_asked(out, name, node.bounds.as_slice());
    let head = add_default(out, bounds, &node.ty);
    let end = add_end(out, head);
    add_semicolon(out, end, &node.wheres)
}
/// Emits the layout of an `extern crate`.
pub fn put_extern_crate<
    E: Emit,
>(out: &mut E, vis: &Vis, node: &ExternCrate) -> Result<(), E::Fault> {
    let opened = open_head(out, Ok(()), vis);
    let words = add_text(out, opened, b"extern crate ");
    let word = add_word(out, words, node.word.raw, &node.word.text);
    let head = add_rename(out, word, &node.renamed);
    let end = add_end(out, head);
    add_text(out, end, b";")
}
