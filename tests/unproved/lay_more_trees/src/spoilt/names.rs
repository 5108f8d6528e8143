//! Names, words of paths, and lifetimes.

use super::each_spoils;
use crate::trees::{
    boxed, bytes, call, empty_block, file_of_expr, file_of_item, file_of_kind, item, name, one,
    simple_path, tokens, word, written,
};
use lay_token::{List, Text};
use lay_tree::{Expr, ExternCrate, File, ItemKind, Lifetime, Name, UseEnd, UseTree, Vis, Word};
use std::alloc::Global;

/// `mod a;`
fn named(alloc: Global, text: &str) -> Option<File> {
    let name = name(alloc, text)?;
    file_of_kind(alloc, ItemKind::FileModule { name })
}

#[test]
fn names(rt: HostRuntime) {
    let rows = "no keyword→a→fn¶true¶self¶crate¶Self¶dyn§\
        no reserved word→union→yield¶try§\
        one character at least→a→§\
        no blank→ab→a b¶a ¶ a§\
        no digit first→a1→1a¶1§\
        no comment→a→a/**/¶a//¶/**/a§\
        no punctuation→a→a;¶a{}¶:§\
        not the sign of no name→_a→_§\
        no first character that only goes on with words→a\u{b7}→\u{b7}a§\
        raw, no word of paths→#fn→#self¶#super¶#crate¶#Self§\
        raw, not the sign of no name→#_a→#_§\
        raw by its flag→#fn→r#fn§\
        raw, without its mark→#fn→#r#fn";
    each_spoils(&rt, rt.alloc(), rows, named);
}

/// `use a;`
fn imported(alloc: Global, text: &str) -> Option<File> {
    import(alloc, List::new(alloc), text)
}

/// `use a::b;`
fn imported_from(alloc: Global, text: &str) -> Option<File> {
    import(alloc, one(alloc, word(alloc, text)?)?, "b")
}

/// An import of a word behind those of a path.
fn import(alloc: Global, path: List<Word>, text: &str) -> Option<File> {
    let end = UseEnd::Word {
        word: word(alloc, text)?,
        rename: None,
    };
    let tree = UseTree {
        global: false,
        path,
        end,
    };
    let tree = boxed(alloc, tree)?;
    file_of_kind(alloc, ItemKind::Import { tree })
}

/// `extern crate a;`
fn extern_crate(alloc: Global, text: &str) -> Option<File> {
    let item = ExternCrate {
        word: word(alloc, text)?,
        renamed: None,
    };
    file_of_kind(alloc, ItemKind::ExternCrate { item })
}

#[test]
fn words(rt: HostRuntime) {
    let alloc = rt.alloc();
    let imports = "no other keyword→self→fn¶true¶async¶yield§\
        one word→a→¶a::b¶a as b¶*¶{}§\
        raw, no word of paths→#fn→#self";
    let paths =
        "no other keyword→super→fn¶struct¶do§one word→a→¶::¶a::b§raw, no word of paths→#a→#crate";
    let crates = "a name or self→self→crate¶super¶Self¶fn";
    each_spoils(&rt, alloc, imports, imported);
    each_spoils(&rt, alloc, paths, imported_from);
    each_spoils(&rt, alloc, crates, extern_crate);
}

/// `a! {}`
fn called(alloc: Global, row: &str) -> Option<File> {
    let call = call(simple_path(alloc, row)?, tokens(alloc, "")?);
    file_of_kind(alloc, ItemKind::Call { call })
}

/// `pub(in a) struct A;`
fn restricted(alloc: Global, row: &str) -> Option<File> {
    let mut item = item(alloc, b"struct A;")?;
    item.vis = Vis::In(simple_path(alloc, row)?);
    file_of_item(alloc, item)
}

#[test]
fn simple_paths(rt: HostRuntime) {
    let alloc = rt.alloc();
    let calls = "one word at least→a b→§words of paths→self a→a fn¶if¶a 1¶return";
    let visibilities = "one word at least→a b→§words of paths→crate a→a pub¶in a";
    each_spoils(&rt, alloc, calls, called);
    each_spoils(&rt, alloc, visibilities, restricted);
}

/// `const _: _ = 'a: loop {};`
fn labelled(alloc: Global, text: &str) -> Option<File> {
    let label = Lifetime {
        text: bytes(alloc, text)?,
    };
    let body = empty_block(alloc);
    file_of_expr(
        alloc,
        Expr::Loop {
            label: Some(label),
            body,
        },
    )
}

#[test]
fn lifetimes(rt: HostRuntime) {
    let rows = "a quote first→'a→a¶¶\"a§\
        a word behind the quote→'fn→'¶'1¶''¶' a§\
        no quote at the end→'_→'a'¶'_'§\
        one word→'ab→'a b¶'a:¶'a/**/¶'a 'b";
    each_spoils(&rt, rt.alloc(), rows, labelled);
}

/// `mod a;` of a name of these bytes.
fn named_by(alloc: Global, text: &[u8]) -> Option<File> {
    let name = Name {
        raw: false,
        text: Text::from_bytes(alloc, text).ok()?,
    };
    file_of_kind(alloc, ItemKind::FileModule { name })
}

// Texts are bytes, and those of a file are UTF-8.
#[test]
fn bytes_of_names(rt: HostRuntime) {
    let alloc = rt.alloc();
    assert_eq!(rt; written(alloc, named_by(alloc, b"\xc3\xa9")), Some(true));
    assert_eq!(rt; written(alloc, named_by(alloc, b"\xe9")), Some(false));
    assert_eq!(rt; written(alloc, named_by(alloc, b"a\xc3")), Some(false));
}
