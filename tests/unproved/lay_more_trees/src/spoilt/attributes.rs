//! Attributes: where they stand, what documentation holds, and which attributes are documentation.

use super::{BESIDE, each_spoils};
use crate::trees::{
    block, boxed, boxed_expr, bytes, expr, file_of_block, file_of_expr, file_of_item, file_of_kind,
    file_of_pat, file_of_stmt, file_of_type, item, item_kind, name, one, pat, path_of_words,
    simple_path, tokens, ty,
};
use lay_token::List;
use lay_tree::{
    Arm, Attr, ClosureParam, Expr, Field, FieldExpr, FieldPat, Fields, File, FuncParam,
    GenericParam, ItemKind, MetaInput, MetaPath, Param, ParamKind, Pat, Stmt, Ty, Variant,
    Vis,
};
use std::alloc::Global;

/// The list of one attribute `a`, which is inner where the row says so.
fn side(alloc: Global, row: &str) -> Option<List<Attr>> {
    let attr = Attr::Meta {
        inner: row == "inner",
        path: MetaPath::Path(simple_path(alloc, "a")?),
        input: MetaInput::Bare,
    };
    one(alloc, attr)
}

/// `#[a] struct A;`
fn before_item(alloc: Global, row: &str) -> Option<File> {
    let mut item = item(alloc, b"struct A;")?;
    item.attrs = side(alloc, row)?;
    file_of_item(alloc, item)
}

/// `struct A { #[a] b: C }`
fn before_field(alloc: Global, row: &str) -> Option<File> {
    let fields = one(alloc, field(alloc, row)?)?;
    let mut kind = item_kind(alloc, b"struct A{}")?;
    if let ItemKind::Struct { item } = &mut kind {
        item.fields = Fields::Named { fields };
    }
    file_of_kind(alloc, kind)
}

/// `#[a] b: C`
fn field(alloc: Global, row: &str) -> Option<Field> {
    let attrs = side(alloc, row)?;
    let name = name(alloc, "b")?;
    let ty = ty(alloc, "C")?;
    Some(Field {
        attrs,
        vis: Vis::Inherited,
        name,
        ty,
    })
}

/// `fn f(#[a] ...) {}`
fn before_param(alloc: Global, row: &str) -> Option<File> {
    let param = Param {
        attrs: side(alloc, row)?,
        kind: ParamKind::Variadic,
    };
    let params = one(alloc, param)?;
    let mut kind = item_kind(alloc, b"fn f(){}")?;
    if let ItemKind::Function { head, .. } = &mut kind {
        head.params = params;
    }
    file_of_kind(alloc, kind)
}

/// `fn f<#[a] B>() {}`
fn before_generic_param(alloc: Global, row: &str) -> Option<File> {
    let param = GenericParam::Named {
        attrs: side(alloc, row)?,
        name: name(alloc, "B")?,
        bounds: List::new(alloc),
        default: None,
    };
    let params = one(alloc, param)?;
    let mut kind = item_kind(alloc, b"fn f(){}")?;
    if let ItemKind::Function { head, .. } = &mut kind {
        head.generics.params = params;
    }
    file_of_kind(alloc, kind)
}

/// `#[a] b`, a statement
fn before_statement(alloc: Global, row: &str) -> Option<File> {
    let attrs = side(alloc, row)?;
    let expr = boxed_expr(alloc, "b")?;
    file_of_stmt(
        alloc,
        Stmt::Expr {
            attrs,
            expr,
            ended: true,
        },
    )
}

/// `#[a] let b;`
fn before_let(alloc: Global, row: &str) -> Option<File> {
    let attrs = side(alloc, row)?;
    let pat = pat(alloc, "b")?;
    file_of_stmt(
        alloc,
        Stmt::Let {
            attrs,
            pat,
            ty: None,
            value: None,
            otherwise: None,
        },
    )
}

/// `|#[a] b| c`
fn before_closure_param(alloc: Global, row: &str) -> Option<File> {
    let param = ClosureParam {
        attrs: side(alloc, row)?,
        pat: pat(alloc, "b")?,
        ty: None,
    };
    let params = one(alloc, param)?;
    let body = boxed_expr(alloc, "c")?;
    file_of_expr(
        alloc,
        Expr::Closure {
            is_async: false,
            moves: false,
            params,
            body,
        },
    )
}

/// `enum A { #[a] B }`
fn before_variant(alloc: Global, row: &str) -> Option<File> {
    let variant = Variant {
        attrs: side(alloc, row)?,
        vis: Vis::Inherited,
        name: name(alloc, "B")?,
        fields: Fields::Unit,
        discriminant: None,
    };
    let variants = one(alloc, variant)?;
    let mut kind = item_kind(alloc, b"enum A{}")?;
    if let ItemKind::Enum { item } = &mut kind {
        item.variants = variants;
    }
    file_of_kind(alloc, kind)
}

/// `fn(#[a] _)`, a type
fn before_type_param(alloc: Global, row: &str) -> Option<File> {
    let param = FuncParam {
        attrs: side(alloc, row)?,
        name: None,
        ty: Ty::Infer,
    };
    let params = one(alloc, param)?;
    file_of_type(
        alloc,
        Ty::Func {
            binder: boxed(alloc, None)?,
            is_unsafe: false,
            abi: boxed(alloc, None)?,
            params,
            variadic: false,
            output: None,
        },
    )
}

/// `A { #[a] b }`, an expression
fn before_field_expr(alloc: Global, row: &str) -> Option<File> {
    let attrs = side(alloc, row)?;
    let name = name(alloc, "b")?;
    let fields = one(alloc, FieldExpr::Short { attrs, name })?;
    let path = path_of_words(alloc, "A")?;
    file_of_expr(
        alloc,
        Expr::Struct {
            path,
            fields,
            base: None,
        },
    )
}

/// `A { #[a] b }`, a pattern
fn before_field_pattern(alloc: Global, row: &str) -> Option<File> {
    let attrs = side(alloc, row)?;
    let pat = pat(alloc, "b")?;
    let fields = one(alloc, FieldPat::Short { attrs, pat })?;
    let path = path_of_words(alloc, "A")?;
    file_of_pat(
        alloc,
        Pat::Struct {
            path,
            fields,
            rest: false,
        },
    )
}

/// `match b { #[a] _ => c }`
fn before_arm(alloc: Global, row: &str) -> Option<File> {
    let arm = Arm {
        attrs: side(alloc, row)?,
        pat: Pat::Wild,
        guard: None,
        body: boxed(alloc, Expr::Underscore)?,
    };
    let given = one(alloc, arm)?;
    let mut matched = expr(alloc, "match b{}")?;
    if let Expr::Match { arms, .. } = &mut matched {
        *arms = given;
    }
    file_of_expr(alloc, matched)
}

#[test]
fn outer_attributes(rt: HostRuntime) {
    let alloc = rt.alloc();
    let rows = "outer before what it is of→outer→inner";
    each_spoils(&rt, alloc, rows, before_item);
    each_spoils(&rt, alloc, rows, before_field);
    each_spoils(&rt, alloc, rows, before_param);
    each_spoils(&rt, alloc, rows, before_generic_param);
    each_spoils(&rt, alloc, rows, before_statement);
    each_spoils(&rt, alloc, rows, before_let);
    each_spoils(&rt, alloc, rows, before_closure_param);
    each_spoils(&rt, alloc, rows, before_variant);
    each_spoils(&rt, alloc, rows, before_type_param);
    each_spoils(&rt, alloc, rows, before_field_expr);
    each_spoils(&rt, alloc, rows, before_field_pattern);
    each_spoils(&rt, alloc, rows, before_arm);
}

/// `#![a] struct A;`
fn in_file(alloc: Global, row: &str) -> Option<File> {
    let items = one(alloc, item(alloc, b"struct A;")?)?;
    Some(File {
        shebang: None,
        attrs: side(alloc, row)?,
        items,
    })
}

/// `fn f() { #![a] b }`
fn in_block(alloc: Global, row: &str) -> Option<File> {
    let mut body = block(alloc, "b")?;
    body.attrs = side(alloc, row)?;
    file_of_block(alloc, body)
}

/// `match a { #![a] b => c }`
fn in_match(alloc: Global, row: &str) -> Option<File> {
    let given = side(alloc, row)?;
    let mut matched = expr(alloc, "match a{b=>c}")?;
    if let Expr::Match { attrs, .. } = &mut matched {
        *attrs = given;
    }
    file_of_expr(alloc, matched)
}

/// The item of a text, with an attribute in its body.
fn in_item(alloc: Global, row: &str) -> Option<File> {
    let (text, row) = row.split_once(BESIDE)?;
    let mut kind = item_kind(alloc, text.as_bytes())?;
    set_within(&mut kind, side(alloc, row)?);
    file_of_kind(alloc, kind)
}

/// Sets the inner attributes of an item that has such.
fn set_within(kind: &mut ItemKind, given: List<Attr>) {
    match kind {
        ItemKind::Module { attrs, .. }
        | ItemKind::Trait { attrs, .. }
        | ItemKind::Impl { attrs, .. }
        | ItemKind::Foreign { attrs, .. } => {
            *attrs = given;
        }
        _ => {}
    }
}

#[test]
fn inner_attributes(rt: HostRuntime) {
    let alloc = rt.alloc();
    let rows = "inner in what it is of→inner→outer";
    each_spoils(&rt, alloc, rows, in_file);
    each_spoils(&rt, alloc, rows, in_block);
    each_spoils(&rt, alloc, rows, in_match);
    let items = "inner in a module→mod a{}·inner→mod a{}·outer§\
        inner in a trait→trait A{}·inner→trait A{}·outer§\
        inner in an implementation→impl A{}·inner→impl A{}·outer§\
        inner in a foreign block→extern{}·inner→extern{}·outer";
    each_spoils(&rt, alloc, items, in_item);
}

/// `/// a` before `struct A;`
fn documented(alloc: Global, text: &str) -> Option<File> {
    let attr = Attr::Doc {
        inner: false,
        text: bytes(alloc, text)?,
    };
    let mut item = item(alloc, b"struct A;")?;
    item.attrs = one(alloc, attr)?;
    file_of_item(alloc, item)
}

/// A file of `//! a`.
fn documented_within(alloc: Global, text: &str) -> Option<File> {
    let attr = Attr::Doc {
        inner: true,
        text: bytes(alloc, text)?,
    };
    Some(File {
        shebang: None,
        attrs: one(alloc, attr)?,
        items: List::new(alloc),
    })
}

#[test]
fn documentation(rt: HostRuntime) {
    let alloc = rt.alloc();
    let both = "no CR→ a→ a\r¶\ra¶a\r\nb¶a\nb\r§\
        no blank at the end of a line→a\t→a\t ¶ ¶** §\
        what opens closes in it→a\n/*b*/→a\n/*b¶a\n/¶a/*/*\n*/§\
        what closes opens in it→a\n*→a\n*/¶ */\na¶a*/b\n";
    let outer = "a line begins with no slash→!a→/a¶/¶//§\
        a block begins with no slash→ a\nb→/a\nb¶/\n§\
        a block begins with no star→*a→*a\nb¶*\n";
    each_spoils(&rt, alloc, both, documented);
    each_spoils(&rt, alloc, both, documented_within);
    each_spoils(&rt, alloc, outer, documented);
    let inner = "a line may begin with a slash→/a→/a §a block may begin with a star→*a\nb→*a\nb*/";
    each_spoils(&rt, alloc, inner, documented_within);
}

/// `#[doc = a]`, of the tokens of a text
fn doc_of(alloc: Global, text: &str) -> Option<File> {
    with_meta(alloc, "doc", MetaInput::Value(tokens(alloc, text)?))
}

/// `#[a = " b"]`, where the row has the words of the path
fn doc_called(alloc: Global, row: &str) -> Option<File> {
    with_meta(alloc, row, MetaInput::Value(tokens(alloc, "\" b\"")?))
}

/// `#[a = b]`, of the tokens of a text
fn valued(alloc: Global, text: &str) -> Option<File> {
    with_meta(alloc, "a", MetaInput::Value(tokens(alloc, text)?))
}

/// `#[a]`, where the row has the words of the path
fn called(alloc: Global, row: &str) -> Option<File> {
    with_meta(alloc, row, MetaInput::Bare)
}

/// `struct A;` with an attribute before it.
fn with_meta(alloc: Global, row: &str, input: MetaInput) -> Option<File> {
    let attr = Attr::Meta {
        inner: false,
        path: MetaPath::Path(simple_path(alloc, row)?),
        input,
    };
    let mut item = item(alloc, b"struct A;")?;
    item.attrs = one(alloc, attr)?;
    file_of_item(alloc, item)
}

#[test]
fn metas(rt: HostRuntime) {
    let alloc = rt.alloc();
    let values = "no documentation→\"/x\"→\" one\"¶\"\"¶r\"a\"¶r#\"a\"#¶\"a\\nb\"¶\"a\nb\"§\
        no documentation, of several tokens→\"a\" \"b\"→\"a\"§\
        no documentation, with a suffix→\"a\"b→\"a\"§\
        no documentation, as bytes→b\"a\"→\"a\"§\
        no documentation, as a block→\"a\\n*/\"→\"a\\n*\"";
    let names = "no documentation by its name→#doc→doc§\
        no documentation by a longer name→a doc→doc§\
        no documentation by another name→docs→doc";
    let tokens = "one token at least→b→";
    let paths =
        "one word at least→a b→§words of paths→self a→a fn¶unsafe¶a unsafe¶true§one name→a→1¶=";
    each_spoils(&rt, alloc, values, doc_of);
    each_spoils(&rt, alloc, names, doc_called);
    each_spoils(&rt, alloc, tokens, valued);
    each_spoils(&rt, alloc, paths, called);
}
