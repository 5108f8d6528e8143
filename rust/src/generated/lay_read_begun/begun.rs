//! Made by scripts/rust.sh from crates/lay_read_begun/src/begun.rt, which is proved: change that.
//!
//! Parsing of items up to their bodies.
use crate::generated::lay_read_begun::leads::{ItemLead, item_lead, may_stand};
use crate::generated::lay_code::{
    Alias,
    Boxed,
    Enum,
    ExternCrate,
    FnHead,
    Group,
    ImplHead,
    Literal,
    MacroCall,
    Name,
    Site,
    Struct,
    TraitHead,
    Union,
    UseTree,
    ValueHead,
    Wheres,
};
use crate::generated::lay_read_generics::wheres_ahead;
use crate::generated::lay_read_head_rules::functions::fn_head_ahead;
use crate::generated::lay_read_head_rules::heads::{
    alias_ahead,
    enum_ahead,
    extern_crate_ahead,
    impl_head_ahead,
    struct_ahead,
    trait_head_ahead,
    union_ahead,
    value_head_ahead,
};
use crate::generated::lay_read_head_rules::level::{kept_if, takes_flag};
use crate::generated::lay_read_head_rules::uses::use_ahead;
use crate::generated::lay_read_parts::joins::both;
use crate::generated::lay_read_parts::parts::read_abi_if;
use crate::generated::lay_read_tokens::calls::{call_ahead, takes_end};
use crate::generated::lay_read_tokens::found::greater;
use crate::generated::lay_read_tokens::front::{pass_two, takes_keyword, takes_mark};
use crate::generated::lay_read_tokens::names::read_name;
use crate::generated::lay_read_tokens::stop::boxed;
use crate::generated::lay_read_tokens::tokens::read_group;
use crate::generated::lay_read_tokens::{Ahead, Found, ReadNone};
use crate::shims::Global;
/// An item without a body. It is no `ItemKind`, since a function that has one takes ten times as
/// long to be proved.
pub enum Whole {
    ExternCrate {
        item: ExternCrate,
    },
    Import {
        tree: Boxed<UseTree>,
    },
    FileModule {
        name: Name,
    },
    Alias {
        item: Alias,
    },
    Struct {
        item: Struct,
    },
    Union {
        item: Union,
    },
    Enum {
        item: Enum,
    },
    MacroRules {
        name: Name,
        rules: Group,
    },
    Call {
        call: MacroCall,
    },
}
/// An item up to its body, or the whole item if it has none. Large parts are boxed, since the value
/// is moved many times.
pub enum Begun {
    Whole {
        item: Boxed<Whole>,
    },
    Module {
        name: Name,
    },
    Trait {
        head: Boxed<TraitHead>,
        wheres: Wheres,
    },
    Impl {
        head: Boxed<ImplHead>,
        wheres: Wheres,
    },
    Foreign {
        is_unsafe: bool,
        abi: Option<Literal>,
    },
    Function {
        head: Boxed<FnHead>,
        wheres: Wheres,
    },
    Value {
        head: Boxed<ValueHead>,
    },
}
/// Parses an item at its site, up to its body. What it contains fits in `depth` levels.
pub fn read_begun(
    alloc: Global,
    at: &mut Ahead<'_>,
    site: Site,
    depth: u32,
) -> Result<Found<Begun>, ReadNone> {
    let lead = item_lead(at);
    if may_stand(site, lead) { begun_by(alloc, at, site, lead, depth) } else {
        Err(ReadNone::NoReading)
    }
}
/// Parses an item with this lead, up to its body.
fn begun_by(
    alloc: Global,
    at: &mut Ahead<'_>,
    site: Site,
    lead: ItemLead,
    depth: u32,
) -> Result<Found<Begun>, ReadNone> {
    match lead {
        ItemLead::ExternCrate => begin_extern_crate(alloc, at),
        ItemLead::Import => begin_import(alloc, at, depth),
        ItemLead::Module => begin_module(alloc, at),
        ItemLead::Function => begin_function(alloc, at, site, depth),
        ItemLead::Alias => begin_alias(alloc, at, site, depth),
        ItemLead::Struct => begin_struct(alloc, at, depth),
        ItemLead::Union => begin_union(alloc, at, depth),
        ItemLead::Enum => begin_enum(alloc, at, depth),
        ItemLead::Value => begin_value(alloc, at, depth),
        ItemLead::Trait => begin_trait(alloc, at, depth),
        ItemLead::Impl => begin_impl(alloc, at, depth),
        ItemLead::Foreign => begin_foreign(alloc, at),
        ItemLead::Rules => begin_rules(alloc, at),
        ItemLead::Call => begin_call(alloc, at),
    }
}
/// An item without a body, which needs this depth.
fn whole_item(item: Boxed<Whole>, need: u32) -> Found<Begun> {
    Found { node: Begun::Whole { item }, need }
}
/// Parses an extern crate declaration.
fn begin_extern_crate(
    alloc: Global,
    at: &mut Ahead<'_>,
) -> Result<Found<Begun>, ReadNone> {
    let item = extern_crate_ahead(alloc, at)?;
    let item = boxed(alloc, Whole::ExternCrate { item })?;
    Ok(whole_item(item, 0))
}
/// Parses an import.
fn begin_import(
    alloc: Global,
    at: &mut Ahead<'_>,
    depth: u32,
) -> Result<Found<Begun>, ReadNone> {
    if !takes_keyword(at, b"use") {
        return Err(ReadNone::NoReading);
    }
    let Found { node, need } = use_ahead(alloc, at, depth)?;
    let tree = boxed(alloc, node)?;
    let item = boxed(alloc, Whole::Import { tree })?;
    let keeps = takes_mark(at, b";");
    kept_if(whole_item(item, need), keeps)
}
/// Parses `mod a;`, or the head of a module with a body.
fn begin_module(alloc: Global, at: &mut Ahead<'_>) -> Result<Found<Begun>, ReadNone> {
    if !takes_keyword(at, b"mod") {
        return Err(ReadNone::NoReading);
    }
    let name = read_name(alloc, at)?;
    if takes_mark(at, b";") {
        let item = boxed(alloc, Whole::FileModule { name })?;
        Ok(whole_item(item, 0))
    } else { Ok(Found { node: Begun::Module { name }, need: 0 }) }
}
/// Parses a function, up to its body.
fn begin_function(
    alloc: Global,
    at: &mut Ahead<'_>,
    site: Site,
    depth: u32,
) -> Result<Found<Begun>, ReadNone> {
    let Found { node, need } = fn_head_ahead(alloc, at, site, depth)?;
    let head = boxed(alloc, node)?;
    let (head, wheres) = both(head, wheres_ahead(alloc, at, depth))?;
    Ok(
        Found {
            need: greater(need, wheres.need),
            node: Begun::Function { head, wheres: wheres.node.0 },
        },
    )
}
/// Parses a type alias.
fn begin_alias(
    alloc: Global,
    at: &mut Ahead<'_>,
    site: Site,
    depth: u32,
) -> Result<Found<Begun>, ReadNone> {
    let Found { node, need } = alias_ahead(alloc, at, site, depth)?;
    let item = boxed(alloc, Whole::Alias { item: node })?;
    Ok(whole_item(item, need))
}
/// Parses a struct.
fn begin_struct(
    alloc: Global,
    at: &mut Ahead<'_>,
    depth: u32,
) -> Result<Found<Begun>, ReadNone> {
    let Found { node, need } = struct_ahead(alloc, at, depth)?;
    let item = boxed(alloc, Whole::Struct { item: node })?;
    Ok(whole_item(item, need))
}
/// Parses a union.
fn begin_union(
    alloc: Global,
    at: &mut Ahead<'_>,
    depth: u32,
) -> Result<Found<Begun>, ReadNone> {
    let Found { node, need } = union_ahead(alloc, at, depth)?;
    let item = boxed(alloc, Whole::Union { item: node })?;
    Ok(whole_item(item, need))
}
/// Parses an enumeration.
fn begin_enum(
    alloc: Global,
    at: &mut Ahead<'_>,
    depth: u32,
) -> Result<Found<Begun>, ReadNone> {
    let Found { node, need } = enum_ahead(alloc, at, depth)?;
    let item = boxed(alloc, Whole::Enum { item: node })?;
    Ok(whole_item(item, need))
}
/// Parses a constant or a static, up to its value.
fn begin_value(
    alloc: Global,
    at: &mut Ahead<'_>,
    depth: u32,
) -> Result<Found<Begun>, ReadNone> {
    let Found { node, need } = value_head_ahead(alloc, at, depth)?;
    let head = boxed(alloc, node)?;
    Ok(Found { need, node: Begun::Value { head } })
}
/// Parses a trait, up to its body.
fn begin_trait(
    alloc: Global,
    at: &mut Ahead<'_>,
    depth: u32,
) -> Result<Found<Begun>, ReadNone> {
    let Found { node, need } = trait_head_ahead(alloc, at, depth)?;
    let head = boxed(alloc, node.0)?;
    let (head, wheres) = both(head, wheres_ahead(alloc, at, depth))?;
    Ok(
        Found {
            need: greater(need, wheres.need),
            node: Begun::Trait { head, wheres: wheres.node.0 },
        },
    )
}
/// Parses an implementation, up to its body.
fn begin_impl(
    alloc: Global,
    at: &mut Ahead<'_>,
    depth: u32,
) -> Result<Found<Begun>, ReadNone> {
    let Found { node, need } = impl_head_ahead(alloc, at, depth)?;
    let head = boxed(alloc, node)?;
    let (head, wheres) = both(head, wheres_ahead(alloc, at, depth))?;
    Ok(
        Found {
            need: greater(need, wheres.need),
            node: Begun::Impl { head, wheres: wheres.node.0 },
        },
    )
}
/// Parses a foreign block, up to its body.
fn begin_foreign(alloc: Global, at: &mut Ahead<'_>) -> Result<Found<Begun>, ReadNone> {
    let is_unsafe = takes_flag(at, b"unsafe");
    match read_abi_if(alloc, at)? {
        Some(abi) => {
            Ok(Found { node: Begun::Foreign { is_unsafe, abi: abi.name }, need: 0 })
        }
        None => Err(ReadNone::NoReading),
    }
}
/// Parses a macro definition; that it is one was seen before.
fn begin_rules(alloc: Global, at: &mut Ahead<'_>) -> Result<Found<Begun>, ReadNone> {
    pass_two(at);
    let name = read_name(alloc, at)?;
    let rules = read_group(alloc, at)?;
    if takes_end(at, rules.delim) {
        let item = boxed(alloc, Whole::MacroRules { name, rules })?;
        Ok(whole_item(item, 0))
    } else { Err(ReadNone::NoReading) }
}
/// Parses a macro call as an item, with what ends it.
fn begin_call(alloc: Global, at: &mut Ahead<'_>) -> Result<Found<Begun>, ReadNone> {
    let call = call_ahead(alloc, at)?;
    if takes_end(at, call.tokens.delim) {
        let item = boxed(alloc, Whole::Call { call })?;
        Ok(whole_item(item, 0))
    } else { Err(ReadNone::NoReading) }
}
