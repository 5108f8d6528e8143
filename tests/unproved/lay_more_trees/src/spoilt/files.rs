//! Files: their first line, and how deep they are.

use super::each_spoils;
use crate::trees::{
    boxed, bytes, file_of_expr, file_of_item, file_of_kind, file_of_pat, file_of_type, item, name,
    one,
};
use lay_token::List;
use lay_tree::{Expr, File, Item, ItemKind, Pat, Prefix, Ty, UseEnd, UseTree, Vis};
use std::alloc::Global;

/// A file of a first line alone.
fn shebang(alloc: Global, text: &str) -> Option<File> {
    Some(File {
        shebang: Some(bytes(alloc, text)?),
        attrs: List::new(alloc),
        items: List::new(alloc),
    })
}

#[test]
fn first_lines(rt: HostRuntime) {
    let rows = "#! first→#!/bin/sh→/bin/sh¶¶#/bin/sh¶ #!/bin/sh¶!#a¶//a§\
        no attribute behind it→#!a[→#![a]¶#! [a]¶#!\t[§\
        no comment behind it→#!a//→#!//a¶#! /*a*/¶#!/* a§\
        more than blanks behind it→#! a→#!¶#! ¶#! \t§\
        one line→#!a b→#!a\nb¶#!a\n¶#!a\r\nb§\
        no CR at its end→#!a\rb→#!a\r¶#!a\r\r";
    each_spoils(&rt, rt.alloc(), rows, shebang);
}

// ---- depth

/// The number that a text writes.
fn number(text: &str) -> Option<u64> {
    text.parse::<u64>().ok()
}

/// A module within so many others.
fn modules(alloc: Global, text: &str) -> Option<File> {
    let mut inner = item(alloc, b"mod a;")?;
    for _ in 0..number(text)? {
        let kind = ItemKind::Module {
            name: name(alloc, "a")?,
            attrs: List::new(alloc),
            items: one(alloc, inner)?,
        };
        inner = Item {
            attrs: List::new(alloc),
            vis: Vis::Inherited,
            kind: boxed(alloc, kind)?,
        };
    }
    file_of_item(alloc, inner)
}

/// `_` within so many parentheses
fn exprs(alloc: Global, text: &str) -> Option<File> {
    let mut inner = Expr::Underscore;
    for _ in 0..number(text)? {
        inner = Expr::Paren {
            inner: boxed(alloc, inner)?,
        };
    }
    file_of_expr(alloc, inner)
}

/// The type `_` within so many parentheses.
fn types(alloc: Global, text: &str) -> Option<File> {
    let mut inner = Ty::Infer;
    for _ in 0..number(text)? {
        inner = Ty::Paren {
            inner: boxed(alloc, inner)?,
        };
    }
    file_of_type(alloc, inner)
}

/// The pattern `_` within so many parentheses.
fn patterns(alloc: Global, text: &str) -> Option<File> {
    let mut inner = Pat::Wild;
    for _ in 0..number(text)? {
        inner = Pat::Paren {
            inner: boxed(alloc, inner)?,
        };
    }
    file_of_pat(alloc, inner)
}

/// `*` within so many groups of an import.
fn use_trees(alloc: Global, text: &str) -> Option<File> {
    let mut end = UseEnd::Glob;
    for _ in 0..number(text)? {
        let trees = one(alloc, use_tree(alloc, end))?;
        end = UseEnd::Group { trees };
    }
    let tree = boxed(alloc, use_tree(alloc, end))?;
    file_of_kind(alloc, ItemKind::Import { tree })
}

/// An import of this end alone.
fn use_tree(alloc: Global, end: UseEnd) -> UseTree {
    UseTree {
        global: false,
        path: List::new(alloc),
        end,
    }
}

/// So many `-` before `_`.
fn prefixes(alloc: Global, text: &str) -> Option<File> {
    let mut prefixes = List::new(alloc);
    for _ in 0..number(text)? {
        prefixes.push(Prefix::Neg).ok()?;
    }
    let operand = boxed(alloc, Expr::Underscore)?;
    file_of_expr(alloc, Expr::Unary { prefixes, operand })
}

// An item stands at depth 256, and what is within it one deeper. The pattern stands in an expression.
#[test]
fn depths(rt: HostRuntime) {
    let alloc = rt.alloc();
    each_spoils(&rt, alloc, "depth 256 at most→255→256¶300", modules);
    each_spoils(&rt, alloc, "depth 256 at most→254→255¶300", exprs);
    each_spoils(&rt, alloc, "depth 256 at most→254→255¶300", types);
    each_spoils(&rt, alloc, "depth 256 at most→253→254¶300", patterns);
    each_spoils(&rt, alloc, "depth 256 at most→254→255¶300", use_trees);
    each_spoils(
        &rt,
        alloc,
        "a list in a node takes no depth→400→0",
        prefixes,
    );
}
