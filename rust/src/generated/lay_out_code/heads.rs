//! Made by scripts/rust.sh from crates/lay_out_code/src/heads.rt, which is proved: change that.
//!
//! The layout of the heads of items, each with its visibility in a group of its own.
use crate::generated::lay_out_code::calls::add_use;
use crate::generated::lay_code::{
    FnHead,
    ImplHead,
    Literal,
    Name,
    TraitHead,
    UseTree,
    ValueHead,
    Vis,
    Wheres,
};
use crate::generated::lay_out_heads::calls::add_wheres;
use crate::generated::lay_out_heads::items::{add_semicolon, open_head};
use crate::generated::lay_out_heads::{
    put_fn_head,
    put_impl_head,
    put_trait_head,
    put_value_head,
};
use crate::generated::lay_out_types::calls::{add_if, add_literal, add_text, add_word};
use crate::generated::lay_out_types::lists::add_end;
use crate::generated::lay_stream::Emit;
/// The head of an item, after its visibility.
pub trait Head {
    /// Emits the layout of the head.
    fn add<
        E: Emit,
    >(&self, out: &mut E, before: Result<(), E::Fault>) -> Result<(), E::Fault>;
}
/// Emits a visibility and a head, in a group of their own.
pub fn add_head<
    E: Emit,
    H: Head,
>(
    out: &mut E,
    before: Result<(), E::Fault>,
    vis: &Vis,
    head: &H,
) -> Result<(), E::Fault> {
    let opened = open_head(out, before, vis);
    let head = head.add(out, opened);
    add_end(out, head)
}
/// Emits a visibility, a head, and a `;`.
pub fn add_ended<
    E: Emit,
    H: Head,
>(
    out: &mut E,
    before: Result<(), E::Fault>,
    vis: &Vis,
    head: &H,
) -> Result<(), E::Fault> {
    let head = add_head(out, before, vis, head);
    add_text(out, head, b";")
}
/// Emits a visibility, a head, a where clause, and a `;`.
pub fn add_ended_clause<
    E: Emit,
    H: Head,
>(
    out: &mut E,
    before: Result<(), E::Fault>,
    vis: &Vis,
    head: &H,
    wheres: &Wheres,
) -> Result<(), E::Fault> {
    let head = add_head(out, before, vis, head);
    add_semicolon(out, head, wheres)
}
/// Emits a visibility, a head, and a where clause before a body.
pub fn add_clause<
    E: Emit,
    H: Head,
>(
    out: &mut E,
    before: Result<(), E::Fault>,
    vis: &Vis,
    head: &H,
    wheres: &Wheres,
) -> Result<(), E::Fault> {
    let head = add_head(out, before, vis, head);
    add_wheres(out, head, wheres, true)
}
impl Head for UseTree {
    fn add<
        E: Emit,
    >(&self, out: &mut E, before: Result<(), E::Fault>) -> Result<(), E::Fault> {
        let word = add_text(out, before, b"use ");
        add_use(out, word, self)
    }
}
impl Head for Name {
    fn add<
        E: Emit,
    >(&self, out: &mut E, before: Result<(), E::Fault>) -> Result<(), E::Fault> {
        let word = add_text(out, before, b"mod ");
        add_word(out, word, self.raw, &self.text)
    }
}
impl Head for FnHead {
    fn add<
        E: Emit,
    >(&self, out: &mut E, before: Result<(), E::Fault>) -> Result<(), E::Fault> {
        before?;
        put_fn_head(out, self)
    }
}
impl Head for ValueHead {
    fn add<
        E: Emit,
    >(&self, out: &mut E, before: Result<(), E::Fault>) -> Result<(), E::Fault> {
        before?;
        put_value_head(out, self)
    }
}
impl Head for TraitHead {
    fn add<
        E: Emit,
    >(&self, out: &mut E, before: Result<(), E::Fault>) -> Result<(), E::Fault> {
        before?;
        put_trait_head(out, self)
    }
}
impl Head for ImplHead {
    fn add<
        E: Emit,
    >(&self, out: &mut E, before: Result<(), E::Fault>) -> Result<(), E::Fault> {
        before?;
        put_impl_head(out, self)
    }
}
/// Emits the head of a foreign block.
pub fn add_foreign_head<
    E: Emit,
>(
    out: &mut E,
    before: Result<(), E::Fault>,
    vis: &Vis,
    is_unsafe: bool,
    abi: &Option<Literal>,
) -> Result<(), E::Fault> {
    let opened = open_head(out, before, vis);
    let word = add_if(out, opened, is_unsafe, b"unsafe ");
    let word = add_text(out, word, b"extern");
    let head = add_foreign_abi(out, word, abi);
    add_end(out, head)
}
/// Emits a blank and the string of an ABI, if it has one.
fn add_foreign_abi<
    E: Emit,
>(
    out: &mut E,
    before: Result<(), E::Fault>,
    abi: &Option<Literal>,
) -> Result<(), E::Fault> {
    match abi {
        None => before,
        Some(name) => {
            let blank = add_text(out, before, b" ");
            add_literal(out, blank, name)
        }
    }
}
