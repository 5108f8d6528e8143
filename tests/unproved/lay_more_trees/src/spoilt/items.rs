//! Items: their visibilities, where they stand, and their heads.

use super::{BESIDE, each_spoils};
use crate::trees::{
    boxed, file_of_item, file_of_kind, file_of_stmt, item, item_kind, item_kind_within, item_within,
    one, ty,
};
use lay_token::List;
use lay_tree::{Fields, File, Item, ItemKind, Param, Predicate, Safety, Stmt, TupleField, Vis};
use std::alloc::Global;
use std::mem;

/// The visibility that a text reads to.
fn vis(alloc: Global, text: &str) -> Option<Vis> {
    let mut item = item_within(alloc, "", text, " struct A;")?;
    Some(mem::replace(&mut item.vis, Vis::Inherited))
}

/// The item of a text, with the visibility of another one.
fn visible(alloc: Global, row: &str) -> Option<File> {
    let (given, text) = row.split_once(BESIDE)?;
    let mut item = item(alloc, text.as_bytes())?;
    item.vis = vis(alloc, given)?;
    file_of_item(alloc, item)
}

/// `struct A(pub (a));`, with the visibility and the type of two texts.
fn visible_field(alloc: Global, row: &str) -> Option<File> {
    let fields = one(alloc, tuple_field(alloc, row)?)?;
    let mut kind = item_kind(alloc, b"struct A;")?;
    if let ItemKind::Struct { item } = &mut kind {
        item.fields = Fields::Tuple { fields };
    }
    file_of_kind(alloc, kind)
}

/// `pub (a)`
fn tuple_field(alloc: Global, row: &str) -> Option<TupleField> {
    let (given, text) = row.split_once(BESIDE)?;
    let vis = vis(alloc, given)?;
    let ty = ty(alloc, text)?;
    Some(TupleField {
        attrs: List::new(alloc),
        vis,
        ty,
    })
}

#[test]
fn visibilities(rt: HostRuntime) {
    let items = "none on a macro call→·m!{}→pub·m!{}¶pub(crate)·m!{}¶pub·m!();¶pub(in a)·a::m!{}§\
        none on rules→·macro_rules! m{}→pub·macro_rules! m{}¶pub(self)·macro_rules! m{}";
    let fields = "no type that restricts it→pub·(a)→pub·(crate)¶pub·(self)¶pub·(super)§\
        no type that restricts it behind pub alone→·(crate)→pub·(crate)§\
        no type that restricts it, but a longer one→pub·(crate,)→pub·(crate)";
    each_spoils(&rt, rt.alloc(), items, visible);
    each_spoils(&rt, rt.alloc(), fields, visible_field);
}

// ---- sites

/// The last item within the last item of a text.
fn member(alloc: Global, text: &str) -> Option<Item> {
    let mut outside = item_kind(alloc, text.as_bytes())?;
    match &mut outside {
        ItemKind::Module { items, .. }
        | ItemKind::Trait { items, .. }
        | ItemKind::Impl { items, .. }
        | ItemKind::Foreign { items, .. } => {
            mem::replace(items, List::new(alloc)).into_vec().pop()
        }
        _ => None,
    }
}

/// The item of a text with this one in its body.
fn around(alloc: Global, text: &[u8], within: Item) -> Option<File> {
    let mut outside = item_kind(alloc, text)?;
    let given = one(alloc, within)?;
    match &mut outside {
        ItemKind::Module { items, .. }
        | ItemKind::Trait { items, .. }
        | ItemKind::Impl { items, .. }
        | ItemKind::Foreign { items, .. } => {
            *items = given;
        }
        _ => {}
    }
    file_of_kind(alloc, outside)
}

/// The item within that of a text, by itself.
fn in_file(alloc: Global, text: &str) -> Option<File> {
    file_of_item(alloc, member(alloc, text)?)
}

/// The same in a module.
fn in_module(alloc: Global, text: &str) -> Option<File> {
    around(alloc, b"mod a{}", member(alloc, text)?)
}

/// The same in an implementation.
fn in_impl(alloc: Global, text: &str) -> Option<File> {
    around(alloc, b"impl A{}", member(alloc, text)?)
}

/// The same in a trait.
fn in_trait(alloc: Global, text: &str) -> Option<File> {
    around(alloc, b"trait A{}", member(alloc, text)?)
}

/// The same in a foreign block.
fn in_foreign(alloc: Global, text: &str) -> Option<File> {
    around(alloc, b"extern{}", member(alloc, text)?)
}

/// The same as a statement.
fn in_body(alloc: Global, text: &str) -> Option<File> {
    let item = boxed(alloc, member(alloc, text)?)?;
    file_of_stmt(alloc, Stmt::Item { item })
}

#[test]
fn sites(rt: HostRuntime) {
    let alloc = rt.alloc();
    let modules = "a function with its body→impl A{fn f(){}}→trait A{fn f();}¶extern{fn f();}§\
        a constant with its value→impl A{const B:C=d;}→trait A{const B:C;}§\
        a static with its value→mod a{static A:B=c;}→extern{static A:B;}§\
        an alias with its type→impl A{type B=C;}→trait A{type B;}¶extern{type B;}";
    each_spoils(&rt, alloc, modules, in_file);
    each_spoils(&rt, alloc, modules, in_module);
    each_spoils(&rt, alloc, modules, in_body);
    let impls = "a function with its body→trait A{fn f(){}}→trait A{fn f();}§\
        a constant with its value→mod a{const B:C=d;}→trait A{const B:C;}§\
        an alias with its type→mod a{type B=C;}→trait A{type B;}§\
        what is a member→mod a{m!{}}→mod a{mod b{}}¶mod a{mod b;}¶mod a{use b;}¶mod a{struct B;}¶mod a{enum B{}}§\
        what is a member→mod a{m!();}→mod a{static B:C=d;}¶extern{static B:C;}¶mod a{extern crate b;}¶mod a{extern{}}§\
        what is a member→mod a{fn f(){}}→mod a{trait B{}}¶mod a{impl B{}}¶mod a{union B{}}¶mod a{macro_rules! m{}}";
    each_spoils(&rt, alloc, impls, in_impl);
    let traits =
        "what is a member→trait A{fn f();}→mod a{mod b{}}¶mod a{mod b;}¶mod a{use b;}¶mod a{struct B;}¶mod a{enum B{}}§\
        what is a member→mod a{fn f(){}}→mod a{static B:C=d;}¶extern{static B:C;}¶mod a{extern crate b;}¶mod a{extern{}}§\
        what is a member→trait A{const B:C;}→mod a{trait B{}}¶mod a{impl B{}}¶mod a{union B{}}¶mod a{macro_rules! m{}}§\
        what is a member→mod a{const B:C=d;}→mod a{static B:C=d;}§\
        what is a member→extern{type A;}→extern{static A:B;}";
    each_spoils(&rt, alloc, traits, in_trait);
    let foreign = "a function without body→trait A{fn f();}→impl A{fn f(){}}§\
        a static without value→extern{static A:B;}→mod a{static A:B=c;}§\
        an alias without type→trait A{type B;}→mod a{type B=C;}§\
        no constant→extern{static A:B;}→trait A{const B:C;}¶mod a{const B:C=d;}§\
        what stands there→mod a{m!();}→mod a{mod b{}}¶mod a{use b;}¶mod a{struct B;}¶mod a{extern{}}¶mod a{macro_rules! m{}}";
    each_spoils(&rt, alloc, foreign, in_foreign);
    let bodies = "no macro call as an item→mod a{macro_rules! m{}}→mod a{m!{}}¶mod a{m!();}";
    each_spoils(&rt, alloc, bodies, in_body);
}

// ---- heads

/// The parameter that a text reads to.
fn param(alloc: Global, text: &str) -> Option<Param> {
    let mut kind = item_kind_within(alloc, "fn f(", text, "){}")?;
    match &mut kind {
        ItemKind::Function { head, .. } => {
            mem::replace(&mut head.params, List::new(alloc))
                .into_vec()
                .pop()
        }
        _ => None,
    }
}

/// A function of these parameters.
fn with_params(alloc: Global, row: &str) -> Option<File> {
    let mut params = List::new(alloc);
    for text in row.split(BESIDE) {
        params.push(param(alloc, text)?).ok()?;
    }
    let mut kind = item_kind(alloc, b"fn f(){}")?;
    if let ItemKind::Function { head, .. } = &mut kind {
        head.params = params;
    }
    file_of_kind(alloc, kind)
}

/// `unsafe fn f() {}`, or what else the row says.
fn safe_or_not(alloc: Global, row: &str) -> Option<File> {
    let mut kind = item_kind(alloc, b"fn f(){}")?;
    if let ItemKind::Function { head, .. } = &mut kind {
        head.safety = match row {
            "safe" => Some(Safety::Safe),
            "unsafe" => Some(Safety::Unsafe),
            _ => None,
        };
    }
    file_of_kind(alloc, kind)
}

#[test]
fn functions(rt: HostRuntime) {
    let alloc = rt.alloc();
    let params = "a receiver first alone→self·a:B→a:B·self¶self·self¶self·a:B·&self¶a:B·mut self:C§\
        more arguments last alone→a:B·...→...·a:B¶...·...¶a:...·b:C¶...·b:...";
    each_spoils(&rt, alloc, params, with_params);
    let safe = "safe in a foreign block alone→unsafe→safe§safe in a foreign block alone→→safe";
    each_spoils(&rt, alloc, safe, safe_or_not);
}

/// The implementation of a text, without its generics.
fn without_generics(alloc: Global, text: &str) -> Option<File> {
    let mut kind = item_kind(alloc, text.as_bytes())?;
    if let ItemKind::Impl { head, .. } = &mut kind {
        head.generics.params = List::new(alloc);
    }
    file_of_kind(alloc, kind)
}

/// `struct A where b:;`, of the type of a text
fn bounded(alloc: Global, text: &str) -> Option<File> {
    let predicate = Predicate::Bounded {
        binder: None,
        ty: ty(alloc, text)?,
        bounds: List::new(alloc),
    };
    let predicates = one(alloc, predicate)?;
    let mut kind = item_kind(alloc, b"struct A;")?;
    if let ItemKind::Struct { item } = &mut kind {
        item.wheres.predicates = predicates;
    }
    file_of_kind(alloc, kind)
}

#[test]
fn implementations_and_where_clauses(rt: HostRuntime) {
    let alloc = rt.alloc();
    let impls =
        "no < behind impl but that of generics→impl<T>A{}→impl<T><A>::B{}¶impl<T><A as B>::C{}¶impl<T><A>::B for C{}§\
        no < behind impl but that of generics→impl<T>!<A>::B for C{}→impl<T><A>::B for C{}§\
        no < behind impl but that of generics→impl<T>(<A>::B){}→impl<T><A>::B{}";
    each_spoils(&rt, alloc, impls, without_generics);
    let wheres = "no function type that begins with a binder→fn()→for<'a>fn()§\
        no function type that begins with a binder→(for<'a>fn())→for<>fn()";
    each_spoils(&rt, alloc, wheres, bounded);
}
