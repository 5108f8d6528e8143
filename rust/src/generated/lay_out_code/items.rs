//! Made by scripts/rust.sh from crates/lay_out_code/src/items.rt, which is proved: change that.
//!
//! The layout of items.
use crate::generated::lay_out_code::blocks::{add_block, add_value};
use crate::generated::lay_out_code::calls::{
    add_alias,
    add_bare_attr,
    add_enum,
    add_extern_crate,
    add_struct,
    add_union,
};
use crate::generated::lay_out_code::heads::{
    Head,
    add_clause,
    add_ended,
    add_ended_clause,
    add_foreign_head,
    add_head,
};
use crate::generated::lay_out_code::macros::{add_call_item, add_macro_rules};
use crate::generated::lay_code::{
    Attr,
    Block,
    Boxed,
    Expr,
    FnHead,
    Item,
    ItemKind,
    ValueHead,
    Vis,
    Wheres,
};
use crate::generated::lay_out_exprs::flags::both;
use crate::generated::lay_out_heads::calls::add_break;
use crate::generated::lay_out_heads::items::{leads, open_head};
use crate::generated::lay_out_heads::loops::{close_body, open_body};
use crate::generated::lay_out_pats::add_attrs;
use crate::generated::lay_out_tokens::HARD_BREAK;
use crate::generated::lay_out_types::calls::{add_either, add_text};
use crate::generated::lay_out_types::lists::add_end;
use crate::generated::lay_paren_defs::{AsIs, Enclose};
use crate::generated::lay_stream::Emit;
/// Emits the layout of an item, with its attributes, each on a line of its own.
pub fn put_item<E: Emit>(out: &mut E, item: &Item) -> Result<(), E::Fault> {
    add_item::<E, AsIs>(out, Ok(()), item)
}
/// Emits an item.
pub fn add_item<
    E: Emit,
    X: Enclose,
>(out: &mut E, before: Result<(), E::Fault>, item: &Item) -> Result<(), E::Fault> {
    let attrs = add_attrs(out, before, item.attrs.as_slice());
    add_kind::<E, X>(out, attrs, &item.vis, item.kind.get())
}
/// Emits an item without its attributes.
fn add_kind<
    E: Emit,
    X: Enclose,
>(
    out: &mut E,
    before: Result<(), E::Fault>,
    vis: &Vis,
    kind: &ItemKind,
) -> Result<(), E::Fault> {
    match kind {
        ItemKind::ExternCrate { item } => add_extern_crate(out, before, vis, item),
        ItemKind::Import { tree } => add_ended(out, before, vis, tree.get()),
        ItemKind::FileModule { name } => add_ended(out, before, vis, name),
        ItemKind::Module { name, attrs, items } => {
            let head = add_head(out, before, vis, name);
            add_body::<E, X>(out, head, true, attrs.as_slice(), items.as_slice())
        }
        ItemKind::Function { head, wheres, body } => {
            add_function::<E, X>(out, before, vis, head, wheres, body)
        }
        ItemKind::Alias { item } => add_alias(out, before, vis, item),
        ItemKind::Struct { item } => add_struct(out, before, vis, item),
        ItemKind::Union { item } => add_union(out, before, vis, item),
        ItemKind::Enum { item } => add_enum(out, before, vis, item),
        ItemKind::Value { head, value } => {
            add_valued::<E, X>(out, before, vis, head, value)
        }
        ItemKind::Trait { head, wheres, attrs, items } => {
            let clause = add_clause(out, before, vis, head, wheres);
            add_body::<
                E,
                X,
            >(out, clause, leads(wheres), attrs.as_slice(), items.as_slice())
        }
        ItemKind::Impl { head, wheres, attrs, items } => {
            let clause = add_clause(out, before, vis, head, wheres);
            add_body::<
                E,
                X,
            >(out, clause, leads(wheres), attrs.as_slice(), items.as_slice())
        }
        ItemKind::Foreign { is_unsafe, abi, attrs, items } => {
            let head = add_foreign_head(out, before, vis, *is_unsafe, abi);
            add_body::<E, X>(out, head, true, attrs.as_slice(), items.as_slice())
        }
        ItemKind::MacroRules { name, rules } => {
            add_macro_rules(out, before, name, rules)
        }
        ItemKind::Call { call } => add_call_item(out, before, call),
    }
}
/// Emits a function, with its body or without one.
fn add_function<
    E: Emit,
    X: Enclose,
>(
    out: &mut E,
    before: Result<(), E::Fault>,
    vis: &Vis,
    head: &FnHead,
    wheres: &Wheres,
    body: &Option<Block>,
) -> Result<(), E::Fault> {
    match body {
        None => add_ended_clause(out, before, vis, head, wheres),
        Some(block) => {
            let clause = add_clause(out, before, vis, head, wheres);
            add_block::<E, X>(out, clause, leads(wheres), block)
        }
    }
}
/// Emits a constant or a static, and a `;`.
fn add_valued<
    E: Emit,
    X: Enclose,
>(
    out: &mut E,
    before: Result<(), E::Fault>,
    vis: &Vis,
    head: &ValueHead,
    value: &Option<Boxed<Expr>>,
) -> Result<(), E::Fault> {
    let opened = open_head(out, before, vis);
    let head = head.add(out, opened);
    let value = add_value::<E, X>(out, head, value);
    let whole = add_end(out, value);
    add_text(out, whole, b";")
}
/// Emits inner attributes and items in braces, each on a line of its own. `lead` says that the
/// braces have a leading blank.
fn add_body<
    E: Emit,
    X: Enclose,
>(
    out: &mut E,
    before: Result<(), E::Fault>,
    lead: bool,
    attrs: &[Attr],
    items: &[Item],
) -> Result<(), E::Fault> {
    if both(attrs.is_empty(), items.is_empty()) {
        return add_either(out, before, lead, b" {}", b"{}");
    }
    let opened = open_body(out, before, lead);
    let attrs = add_inner_attrs(out, opened, attrs);
    let items = add_lines::<E, X>(out, attrs, items);
    close_body(out, items)
}
/// Emits items, each after a newline.
fn add_lines<
    E: Emit,
    X: Enclose,
>(out: &mut E, before: Result<(), E::Fault>, items: &[Item]) -> Result<(), E::Fault> {
    let mut done = before;
    for item in items {
        done = add_break(out, done, HARD_BREAK);
        done = add_item::<E, X>(out, done, item);
    }
    done
}
/// Emits attributes, each after a newline.
pub fn add_inner_attrs<
    E: Emit,
>(out: &mut E, before: Result<(), E::Fault>, attrs: &[Attr]) -> Result<(), E::Fault> {
    let mut done = before;
    for attr in attrs {
        done = add_break(out, done, HARD_BREAK);
        done = add_bare_attr(out, done, attr);
    }
    done
}
