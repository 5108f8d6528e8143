//! Types, and the paths, generic arguments and bounds that they are made of.

use super::each_spoils;
use crate::trees::{
    boxed, empty_block, file_of_expr, file_of_pat, file_of_type, item_kind_within, name, one, path,
    path_of_words, ty, word,
};
use lay_token::List;
use lay_tree::{
    Arg, Args, Bound, Constraint, Expr, File, ItemKind, Pat, Path, PathStart, SpanEnd, Ty,
};
use std::alloc::Global;
use std::mem;

/// The type of this path.
fn file_of_path(alloc: Global, path: Path) -> Option<File> {
    file_of_type(alloc, Ty::Path { path })
}

/// `a::b`, a type
fn words_as_type(alloc: Global, row: &str) -> Option<File> {
    file_of_path(alloc, path_of_words(alloc, row)?)
}

/// `a::b`, an expression
fn words_as_expr(alloc: Global, row: &str) -> Option<File> {
    let path = path_of_words(alloc, row)?;
    file_of_expr(alloc, Expr::Path { path })
}

/// `a::b {}`, an expression
fn words_as_struct(alloc: Global, row: &str) -> Option<File> {
    let path = path_of_words(alloc, row)?;
    file_of_expr(
        alloc,
        Expr::Struct {
            path,
            fields: List::new(alloc),
            base: None,
        },
    )
}

/// `a::b()`, a pattern
fn words_as_pattern(alloc: Global, row: &str) -> Option<File> {
    let path = path_of_words(alloc, row)?;
    file_of_pat(
        alloc,
        Pat::TupleStruct {
            path,
            elements: List::new(alloc),
        },
    )
}

/// A path of kinds and one more segment, `A()::B`
fn lengthened(alloc: Global, text: &str) -> Option<File> {
    let mut path = path(alloc, text)?;
    path.segments.push((word(alloc, "B")?, Args::None)).ok()?;
    file_of_path(alloc, path)
}

#[test]
fn paths(rt: HostRuntime) {
    let alloc = rt.alloc();
    let rows =
        "one segment at least→a b→§words of paths→Self a→a fn¶true¶struct a§a name in each→a→1¶a 'b¶_";
    each_spoils(&rt, alloc, rows, words_as_type);
    each_spoils(&rt, alloc, rows, words_as_expr);
    each_spoils(&rt, alloc, rows, words_as_struct);
    each_spoils(&rt, alloc, rows, words_as_pattern);
    let returns =
        "no return type but on the last segment→A(u8)→A(u8)->C¶A()->&C¶A()->(C)¶a::A()->fn()";
    each_spoils(&rt, alloc, returns, lengthened);
}

// ---- styles

/// A path of kinds as an expression.
fn in_code(alloc: Global, text: &str) -> Option<File> {
    let path = path(alloc, text)?;
    file_of_expr(alloc, Expr::Path { path })
}

/// A path of kinds as that of a struct literal.
fn in_struct(alloc: Global, text: &str) -> Option<File> {
    let path = path(alloc, text)?;
    file_of_expr(
        alloc,
        Expr::Struct {
            path,
            fields: List::new(alloc),
            base: None,
        },
    )
}

/// A path of kinds as a pattern.
fn in_pattern(alloc: Global, text: &str) -> Option<File> {
    let path = path(alloc, text)?;
    file_of_pat(alloc, Pat::Path { path })
}

/// A path of kinds as that of a pattern of fields.
fn in_tuple_pattern(alloc: Global, text: &str) -> Option<File> {
    let path = path(alloc, text)?;
    file_of_pat(
        alloc,
        Pat::TupleStruct {
            path,
            elements: List::new(alloc),
        },
    )
}

/// A path of kinds as the end of a span, `A..`
fn in_span(alloc: Global, text: &str) -> Option<File> {
    let start = Some(SpanEnd::Path(path(alloc, text)?));
    file_of_pat(
        alloc,
        Pat::Span {
            start: boxed(alloc, start)?,
            inclusive: false,
            end: boxed(alloc, None)?,
        },
    )
}

/// The arguments of the last segment of a path of kinds.
fn args(alloc: Global, text: &str) -> Option<Args> {
    let Path { start: _, segments } = path(alloc, text)?;
    let (_, args) = segments.into_vec().pop()?;
    Some(args)
}

/// `A<B<c> = _>`, where the row has the path of the name with its arguments
fn asked(alloc: Global, text: &str) -> Option<File> {
    let arg = Arg::Named {
        name: name(alloc, "B")?,
        args: args(alloc, text)?,
        constraint: Constraint::Equal { ty: Ty::Infer },
    };
    file_of_arg(alloc, arg)
}

/// `A<b>`
fn file_of_arg(alloc: Global, arg: Arg) -> Option<File> {
    let args = one(alloc, arg)?;
    let segments = one(alloc, (word(alloc, "A")?, Args::Angle { args }))?;
    file_of_path(
        alloc,
        Path {
            start: PathStart::Local,
            segments,
        },
    )
}

#[test]
fn styles(rt: HostRuntime) {
    let alloc = rt.alloc();
    let rows =
        "no parentheses in code→a::B<u8>→a::B(u8)¶a::B()->u8¶B(u8)::c§no parentheses in code→B<>→B()";
    each_spoils(&rt, alloc, rows, in_code);
    each_spoils(&rt, alloc, rows, in_struct);
    each_spoils(&rt, alloc, rows, in_pattern);
    each_spoils(&rt, alloc, rows, in_tuple_pattern);
    each_spoils(&rt, alloc, rows, in_span);
    let names = "no parentheses where something is asked→B<u8>→B(u8)¶B()->u8§\
        no parentheses where something is asked→B→B()";
    each_spoils(&rt, alloc, names, asked);
}

// ---- bounds

/// The bounds that a text reads to, which may be none.
fn bounds(alloc: Global, text: &str) -> Option<List<Bound>> {
    if text.is_empty() {
        return Some(List::new(alloc));
    }
    let mut kind = item_kind_within(alloc, "trait A:", text, "{}")?;
    match &mut kind {
        ItemKind::Trait { head, .. } => { Some(mem::replace(&mut head.bounds, List::new(alloc))) }
        _ => None,
    }
}

/// `dyn A`
fn dynamic(alloc: Global, text: &str) -> Option<File> {
    let bounds = bounds(alloc, text)?;
    file_of_type(
        alloc,
        Ty::Bounds {
            dynamic: true,
            bounds,
        },
    )
}

/// `impl A`
fn implemented(alloc: Global, text: &str) -> Option<File> {
    let bounds = bounds(alloc, text)?;
    file_of_type(
        alloc,
        Ty::Bounds {
            dynamic: false,
            bounds,
        },
    )
}

/// `A<B: c>`
fn limited(alloc: Global, text: &str) -> Option<File> {
    let arg = Arg::Named {
        name: name(alloc, "B")?,
        args: Args::None,
        constraint: Constraint::Limit {
            bounds: bounds(alloc, text)?,
        },
    };
    file_of_arg(alloc, arg)
}

/// `&A`
fn behind_ref(alloc: Global, text: &str) -> Option<File> {
    let inner = boxed(alloc, ty(alloc, text)?)?;
    file_of_type(
        alloc,
        Ty::Ref {
            lifetime: None,
            mutable: false,
            inner,
        },
    )
}

/// `*const A`
fn behind_pointer(alloc: Global, text: &str) -> Option<File> {
    let inner = boxed(alloc, ty(alloc, text)?)?;
    file_of_type(
        alloc,
        Ty::Ptr {
            mutable: false,
            inner,
        },
    )
}

/// `fn() -> A`
fn behind_arrow(alloc: Global, text: &str) -> Option<File> {
    let output = Some(boxed(alloc, ty(alloc, text)?)?);
    file_of_type(
        alloc,
        Ty::Func {
            binder: boxed(alloc, None)?,
            is_unsafe: false,
            abi: boxed(alloc, None)?,
            params: List::new(alloc),
            variadic: false,
            output,
        },
    )
}

/// `A() -> b`
fn returned(alloc: Global, text: &str) -> Option<File> {
    let output = Some(boxed(alloc, ty(alloc, text)?)?);
    let args = Args::Round {
        inputs: List::new(alloc),
        output,
    };
    let segments = one(alloc, (word(alloc, "A")?, args))?;
    file_of_path(
        alloc,
        Path {
            start: PathStart::Local,
            segments,
        },
    )
}

/// `_ as A`
fn behind_as(alloc: Global, text: &str) -> Option<File> {
    let operand = boxed(alloc, Expr::Underscore)?;
    let types = one(alloc, ty(alloc, text)?)?;
    file_of_expr(alloc, Expr::Cast { operand, types })
}

/// `|| -> A {}`
fn returned_by_closure(alloc: Global, text: &str) -> Option<File> {
    let output = ty(alloc, text)?;
    file_of_expr(
        alloc,
        Expr::TypedClosure {
            is_async: false,
            moves: false,
            params: List::new(alloc),
            output,
            body: empty_block(alloc),
        },
    )
}

#[test]
fn bounds_of_types(rt: HostRuntime) {
    let alloc = rt.alloc();
    let one_at_least = "one bound at least→A+'b→§one bound at least→?A→";
    each_spoils(&rt, alloc, one_at_least, dynamic);
    each_spoils(&rt, alloc, one_at_least, implemented);
    each_spoils(&rt, alloc, one_at_least, limited);
    let one_alone =
        "one bound alone→dyn A→dyn A+B¶impl A+B¶dyn A+'b+C§one bound alone→(dyn A+B)→dyn A+B§\
        one bound alone→A<dyn B+C>→impl B+C";
    each_spoils(&rt, alloc, one_alone, behind_ref);
    each_spoils(&rt, alloc, one_alone, behind_pointer);
    each_spoils(&rt, alloc, one_alone, behind_arrow);
    each_spoils(&rt, alloc, one_alone, returned);
    each_spoils(&rt, alloc, one_alone, behind_as);
    each_spoils(&rt, alloc, one_alone, returned_by_closure);
}
