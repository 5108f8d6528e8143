//! Patterns.

use super::{BESIDE, each_spoils};
use crate::trees::{
    boxed, boxed_expr, bytes, file_of_expr, file_of_kind, file_of_pat, file_of_stmt, item_kind,
    name, one, pat, path_of_words, ty,
};
use lay_token::{Kind, List};
use lay_tree::{
    ClosureParam, Expr, FieldPat, File, ItemKind, Literal, Param, ParamKind, Pat, PatValue,
    SpanEnd, Stmt,
};
use std::alloc::Global;

// ---- alternatives

/// `A | B`, of the patterns of a row
fn alternatives(alloc: Global, row: &str) -> Option<File> {
    let mut alternatives = List::new(alloc);
    for text in row.split(BESIDE) {
        if !text.is_empty() {
            alternatives.push(pat(alloc, text)?).ok()?;
        }
    }
    file_of_pat(alloc, Pat::Or { alternatives })
}

/// `let A;`
fn behind_let(alloc: Global, text: &str) -> Option<File> {
    let pat = pat(alloc, text)?;
    file_of_stmt(
        alloc,
        Stmt::Let {
            attrs: List::new(alloc),
            pat,
            ty: None,
            value: None,
            otherwise: None,
        },
    )
}

/// `|A| b`
fn of_closure(alloc: Global, text: &str) -> Option<File> {
    let param = ClosureParam {
        attrs: List::new(alloc),
        pat: pat(alloc, text)?,
        ty: None,
    };
    let params = one(alloc, param)?;
    let body = boxed_expr(alloc, "b")?;
    file_of_expr(
        alloc,
        Expr::Closure {
            is_async: false,
            moves: false,
            params,
            body,
        },
    )
}

/// `fn f(A: B) {}`
fn of_function(alloc: Global, text: &str) -> Option<File> {
    let kind = ParamKind::Typed {
        pat: pat(alloc, text)?,
        ty: ty(alloc, "B")?,
    };
    file_of_param(alloc, kind)
}

/// `fn f(A: ...) {}`
fn of_more_arguments(alloc: Global, text: &str) -> Option<File> {
    let kind = ParamKind::NamedVariadic {
        pat: pat(alloc, text)?,
    };
    file_of_param(alloc, kind)
}

/// A function of one parameter.
fn file_of_param(alloc: Global, kind: ParamKind) -> Option<File> {
    let param = Param {
        attrs: List::new(alloc),
        kind,
    };
    let params = one(alloc, param)?;
    let mut kind = item_kind(alloc, b"fn f(){}")?;
    if let ItemKind::Function { head, .. } = &mut kind {
        head.params = params;
    }
    file_of_kind(alloc, kind)
}

/// `a @ B`
fn bound(alloc: Global, text: &str) -> Option<File> {
    let of = Some(boxed(alloc, pat(alloc, text)?)?);
    file_of_pat(
        alloc,
        Pat::Bind {
            by_ref: false,
            mutable: false,
            name: name(alloc, "a")?,
            of,
        },
    )
}

/// `&A`
fn referred(alloc: Global, text: &str) -> Option<File> {
    behind_amp(alloc, false, text)
}

/// `&mut A`
fn referred_to_change(alloc: Global, text: &str) -> Option<File> {
    behind_amp(alloc, true, text)
}

fn behind_amp(alloc: Global, mutable: bool, text: &str) -> Option<File> {
    let inner = boxed(alloc, pat(alloc, text)?)?;
    file_of_pat(alloc, Pat::Ref { mutable, inner })
}

#[test]
fn alternatives_of_patterns(rt: HostRuntime) {
    let alloc = rt.alloc();
    let rows =
        "two at least→A·B→A¶§none of alternatives→(A|B)·C→A|B·C¶C·A|B§two at least→_·1..·&a→..";
    each_spoils(&rt, alloc, rows, alternatives);
    let alone = "one alternative alone→(A|B)→A|B¶A|B|C§one alternative alone→[A|B]→A|B";
    each_spoils(&rt, alloc, alone, behind_let);
    each_spoils(&rt, alloc, alone, of_closure);
    each_spoils(&rt, alloc, alone, of_function);
    each_spoils(&rt, alloc, alone, of_more_arguments);
    each_spoils(&rt, alloc, alone, bound);
    each_spoils(&rt, alloc, alone, referred);
}

// ---- spans, references and paths

/// An end of a span, which is a number, or none where the text is `_`.
fn span_end(alloc: Global, text: &str) -> Option<Option<SpanEnd>> {
    if text == "_" {
        return Some(None);
    }
    let literal = Literal {
        kind: Kind::Int,
        text: bytes(alloc, text)?,
    };
    Some(Some(SpanEnd::Value(PatValue {
        negative: false,
        literal,
    })))
}

/// A span of two ends.
fn span(alloc: Global, row: &str, inclusive: bool) -> Option<File> {
    let (start, end) = row.split_once(BESIDE)?;
    let start = span_end(alloc, start)?;
    let end = span_end(alloc, end)?;
    file_of_pat(
        alloc,
        Pat::Span {
            start: boxed(alloc, start)?,
            inclusive,
            end: boxed(alloc, end)?,
        },
    )
}

/// `1..2`
fn up_to(alloc: Global, row: &str) -> Option<File> {
    span(alloc, row, false)
}

/// `1..=2`
fn up_to_and_with(alloc: Global, row: &str) -> Option<File> {
    span(alloc, row, true)
}

/// A path of these words.
fn path(alloc: Global, row: &str) -> Option<File> {
    let path = path_of_words(alloc, row)?;
    file_of_pat(alloc, Pat::Path { path })
}

/// `(A)`
fn in_parentheses(alloc: Global, text: &str) -> Option<File> {
    let inner = boxed(alloc, pat(alloc, text)?)?;
    file_of_pat(alloc, Pat::Paren { inner })
}

#[test]
fn kinds_of_patterns(rt: HostRuntime) {
    let alloc = rt.alloc();
    let one_end = "one end at least→1·_→_·_§one end at least→_·2→_·_";
    let last_end = "an end behind ..=→1·2→1·_¶_·_§an end behind ..=→_·2→1·_";
    each_spoils(&rt, alloc, one_end, up_to);
    each_spoils(&rt, alloc, last_end, up_to_and_with);
    let spans = "no span behind &→(1..2)→1..2¶1..¶..2¶A::B..=2";
    each_spoils(&rt, alloc, spans, referred);
    each_spoils(&rt, alloc, spans, referred_to_change);
    let changes = "no mut behind & alone→ref mut a→mut a¶mut a@B§no mut behind & alone→a→mut a§\
        no mut behind & alone→(mut a)→mut a";
    each_spoils(&rt, alloc, changes, referred);
    each_spoils(
        &rt,
        alloc,
        "no span behind &→mut a→1..2",
        referred_to_change,
    );
    let paths = "no name by itself→a b→a¶#a§not self by itself→Self→self§\
        not self by itself→crate→self§not self by itself→self a→self";
    each_spoils(&rt, alloc, paths, path);
    each_spoils(
        &rt,
        alloc,
        "no rest in parentheses→_→..§no rest in parentheses→(..)→..",
        in_parentheses,
    );
}

// ---- fields

/// `A { b }`, of a pattern
fn short_field(alloc: Global, text: &str) -> Option<File> {
    let pat = pat(alloc, text)?;
    file_of_field(
        alloc,
        FieldPat::Short {
            attrs: List::new(alloc),
            pat,
        },
    )
}

/// `A { 0: b }`
fn numbered_field(alloc: Global, text: &str) -> Option<File> {
    let pat = pat(alloc, "b")?;
    let index = bytes(alloc, text)?;
    file_of_field(
        alloc,
        FieldPat::Index {
            attrs: List::new(alloc),
            index,
            pat,
        },
    )
}

/// `A { fn: b }`
fn named_field(alloc: Global, text: &str) -> Option<File> {
    let pat = pat(alloc, "b")?;
    let name = name(alloc, text)?;
    file_of_field(
        alloc,
        FieldPat::Named {
            attrs: List::new(alloc),
            name,
            pat,
        },
    )
}

/// A pattern of one field.
fn file_of_field(alloc: Global, field: FieldPat) -> Option<File> {
    let path = path_of_words(alloc, "A")?;
    let fields = one(alloc, field)?;
    file_of_pat(
        alloc,
        Pat::Struct {
            path,
            fields,
            rest: false,
        },
    )
}

/// `fn @ _`, of a name
fn bound_name(alloc: Global, text: &str) -> Option<File> {
    file_of_pat(
        alloc,
        Pat::Bind {
            by_ref: true,
            mutable: false,
            name: name(alloc, text)?,
            of: None,
        },
    )
}

#[test]
fn fields_and_names(rt: HostRuntime) {
    let alloc = rt.alloc();
    let short =
        "a name that is bound→ref a→_¶A::B¶1¶&a¶(a)¶m!()§bound to nothing more→mut a→a@b¶ref mut a@_";
    each_spoils(&rt, alloc, short, short_field);
    each_spoils(&rt, alloc, "an integer→0x1u8→a¶0.5¶¶-1", numbered_field);
    let names = "no keyword→a→fn¶self¶1§raw, no word of paths→#fn→#self";
    each_spoils(&rt, alloc, names, named_field);
    each_spoils(&rt, alloc, names, bound_name);
}
