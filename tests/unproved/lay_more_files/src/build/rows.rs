//! What calls make, printed, and why they refuse.

use crate::build::parts::{
    body, is_printed, is_value, made, named, nothing, only, path, printed, sum, type_of, with,
};
use lay_build::{
    BuildError, BuiltExpr, BuiltItem, Op, block, expr_binary, expr_call, expr_field, expr_if,
    expr_int, expr_method, expr_path, expr_str, expr_struct, field, item_const, item_fn, item_mod,
    item_struct, param, stmt_expr, stmt_let, type_path, type_ref, with_doc,
};
use lay_test_rows::{BETWEEN, parts};
use lay_text::List;
use std::alloc::Global;
use std::process::Abort;

#[test]
fn numbers(rt: HostRuntime) {
    let alloc = rt.alloc();
    let none = made(&rt, expr_int(alloc, 0));
    assert!(&rt; is_value(&rt, alloc, none, "0"));
    let most = made(&rt, expr_int(alloc, u128::MAX));
    assert!(&rt; is_value(&rt, alloc, most, "340282366920938463463374607431768211455"));
}

#[test]
fn strings(rt: HostRuntime) {
    let alloc = rt.alloc();
    let rows = "→\"\"§a é→\"a é\"§\"\\→\"\\\"\\\\\"§a\n\r\tb→\"a\\n\\r\tb\"";
    for row in rows.split(BETWEEN) {
        let (text, wanted) = parts(row);
        let literal = made(&rt, expr_str(alloc, text.as_bytes()));
        assert!(&rt; is_value(&rt, alloc, literal, wanted), "{row}");
    }
    assert!(&rt; matches!(expr_str(alloc, b"\xff"), Err(BuildError::BadText)));
}

#[test]
fn paths(rt: HostRuntime) {
    let alloc = rt.alloc();
    let rest = with(
        &rt,
        only(&rt, alloc, named(&rt, alloc, "type")),
        named(&rt, alloc, "b"),
    );
    let long = made(&rt, expr_path(alloc, named(&rt, alloc, "a"), rest));
    assert!(&rt; is_value(&rt, alloc, long, "a::r#type::b"));
}

/// `a + b`
fn a_and_b(rt: &impl Abort, alloc: Global) -> BuiltExpr {
    sum(rt, alloc, path(rt, alloc, "a"), path(rt, alloc, "b"))
}

/// `S {}`
fn literal(rt: &impl Abort, alloc: Global) -> BuiltExpr {
    let name = named(rt, alloc, "S");
    made(
        rt,
        expr_struct(alloc, name, List::new(alloc), List::new(alloc)),
    )
}

/// The field `f` of an expression.
fn field_of(rt: &impl Abort, alloc: Global, base: BuiltExpr) -> BuiltExpr {
    made(rt, expr_field(alloc, base, named(rt, alloc, "f")))
}

/// An expression called without arguments.
fn called(rt: &impl Abort, alloc: Global, base: BuiltExpr) -> BuiltExpr {
    made(rt, expr_call(alloc, base, List::new(alloc)))
}

/// An `if` that tests an expression, before an empty block.
fn tested(rt: &impl Abort, alloc: Global, test: BuiltExpr) -> BuiltExpr {
    made(rt, expr_if(alloc, test, nothing(rt, alloc), None))
}

#[test]
fn operators(rt: HostRuntime) {
    let alloc = rt.alloc();
    let flat = a_and_b(&rt, alloc);
    assert!(&rt; is_value(&rt, alloc, flat, "a + b"));
    let left = sum(&rt, alloc, a_and_b(&rt, alloc), path(&rt, alloc, "c"));
    assert!(&rt; is_value(&rt, alloc, left, "(a + b) + c"));
    let both = made(
        &rt,
        expr_binary(
            alloc,
            Op::EqEq,
            literal(&rt, alloc),
            field_of(&rt, alloc, path(&rt, alloc, "a")),
        ),
    );
    assert!(&rt; is_value(&rt, alloc, both, "(S {}) == a.f"));
    let any = made(
        &rt,
        expr_binary(
            alloc,
            Op::OrOr,
            path(&rt, alloc, "a"),
            called(&rt, alloc, path(&rt, alloc, "b")),
        ),
    );
    assert!(&rt; is_value(&rt, alloc, any, "a || b()"));
}

#[test]
fn steps(rt: HostRuntime) {
    let alloc = rt.alloc();
    let of_sum = field_of(&rt, alloc, a_and_b(&rt, alloc));
    assert!(&rt; is_value(&rt, alloc, of_sum, "(a + b).f"));
    let twice = called(&rt, alloc, called(&rt, alloc, path(&rt, alloc, "a")));
    assert!(&rt; is_value(&rt, alloc, twice, "a()()"));
    let behind_field = called(
        &rt,
        alloc,
        field_of(&rt, alloc, called(&rt, alloc, path(&rt, alloc, "a"))),
    );
    assert!(&rt; is_value(&rt, alloc, behind_field, "(a().f)()"));
    let args = with(
        &rt,
        only(&rt, alloc, a_and_b(&rt, alloc)),
        literal(&rt, alloc),
    );
    let base = field_of(&rt, alloc, path(&rt, alloc, "a"));
    let method = made(&rt, expr_method(alloc, base, named(&rt, alloc, "in"), args));
    let behind_method = called(&rt, alloc, method);
    assert!(&rt; is_value(&rt, alloc, behind_method, "a.f.r#in(a + b, S {})()"));
    let arg = only(&rt, alloc, path(&rt, alloc, "a"));
    let with_arg = made(&rt, expr_call(alloc, literal(&rt, alloc), arg));
    assert!(&rt; is_value(&rt, alloc, with_arg, "(S {})(a)"));
}

#[test]
fn struct_literals(rt: HostRuntime) {
    let alloc = rt.alloc();
    let first = made(&rt, field(named(&rt, alloc, "a"), a_and_b(&rt, alloc)));
    let second = made(&rt, field(named(&rt, alloc, "b"), literal(&rt, alloc)));
    let fields = with(&rt, only(&rt, alloc, first), second);
    let rest = only(&rt, alloc, named(&rt, alloc, "T"));
    let whole = made(
        &rt,
        expr_struct(alloc, named(&rt, alloc, "m"), rest, fields),
    );
    assert!(&rt; is_value(&rt, alloc, whole, "m::T { a: a + b, b: S {} }"));
}

#[test]
fn branches(rt: HostRuntime) {
    let alloc = rt.alloc();
    let of_chain = tested(&rt, alloc, a_and_b(&rt, alloc));
    assert!(&rt; is_value(&rt, alloc, of_chain, "if a + b {}"));
    let of_literal = tested(&rt, alloc, literal(&rt, alloc));
    assert!(&rt; is_value(&rt, alloc, of_literal, "if (S {}) {}"));
    let of_branch = tested(&rt, alloc, tested(&rt, alloc, path(&rt, alloc, "a")));
    assert!(&rt; is_value(&rt, alloc, of_branch, "if (if a {}) {}"));
    let then = body(&rt, alloc, path(&rt, alloc, "b"));
    let other = body(&rt, alloc, path(&rt, alloc, "c"));
    let both = made(
        &rt,
        expr_if(alloc, path(&rt, alloc, "a"), then, Some(other)),
    );
    assert!(&rt; is_value(&rt, alloc, both, "if a { b } else { c }"));
}

#[test]
fn functions(rt: HostRuntime) {
    let alloc = rt.alloc();
    let plain = made(
        &rt,
        stmt_let(alloc, named(&rt, alloc, "a"), None, path(&rt, alloc, "b")),
    );
    let typed = made(
        &rt,
        stmt_let(
            alloc,
            named(&rt, alloc, "c"),
            Some(type_of(&rt, alloc, "D")),
            a_and_b(&rt, alloc),
        ),
    );
    let stmts = with(&rt, only(&rt, alloc, plain), typed);
    let stmts = with(
        &rt,
        stmts,
        made(
            &rt,
            stmt_expr(alloc, tested(&rt, alloc, path(&rt, alloc, "a"))),
        ),
    );
    let tail = sum(
        &rt,
        alloc,
        tested(&rt, alloc, path(&rt, alloc, "c")),
        path(&rt, alloc, "d"),
    );
    let body = made(&rt, block(alloc, stmts, Some(tail)));
    let reference = made(&rt, type_ref(alloc, true, type_of(&rt, alloc, "A")));
    let params = only(
        &rt,
        alloc,
        made(&rt, param(named(&rt, alloc, "fn"), reference)),
    );
    let output = Some(type_of(&rt, alloc, "E"));
    let function = made(
        &rt,
        item_fn(alloc, true, named(&rt, alloc, "f"), params, output, body),
    );
    let wanted =
        "pub fn f(r#fn: &mut A) -> E {\n    let a = b;\n    let c: D = a + b;\n    if a {};\n    (if c {}) + d\n}\n";
    assert!(&rt; is_printed(&rt, alloc, function, wanted));
}

#[test]
fn operands_in_functions(rt: HostRuntime) {
    let alloc = rt.alloc();
    let two = made(&rt, expr_int(alloc, 2));
    let product = made(&rt, expr_binary(alloc, Op::Mul, a_and_b(&rt, alloc), two));
    let function = made(
        &rt,
        item_fn(
            alloc,
            false,
            named(&rt, alloc, "f"),
            List::new(alloc),
            None,
            body(&rt, alloc, product),
        ),
    );
    assert!(&rt; is_printed(&rt, alloc, function, "fn f() {\n    (a + b) * 2\n}\n"));
}

/// The constant `C`, which is 1.
fn constant(rt: &impl Abort, alloc: Global, public: bool) -> BuiltItem {
    let one = made(rt, expr_int(alloc, 1));
    let ty = type_of(rt, alloc, "u8");
    made(
        rt,
        item_const(alloc, public, named(rt, alloc, "C"), ty, one),
    )
}

#[test]
fn items(rt: HostRuntime) {
    let alloc = rt.alloc();
    let bytes = made(
        &rt,
        type_path(
            alloc,
            named(&rt, alloc, "Vec"),
            List::new(alloc),
            only(&rt, alloc, type_of(&rt, alloc, "u8")),
        ),
    );
    let fields = only(&rt, alloc, made(&rt, param(named(&rt, alloc, "b"), bytes)));
    let structure = made(
        &rt,
        item_struct(alloc, true, named(&rt, alloc, "A"), fields),
    );
    let told = made(&rt, with_doc(alloc, structure, b" x"));
    assert!(&rt;
        is_printed(
            &rt,
            alloc,
            told,
            "/// x\npub struct A {\n    b: Vec<u8>,\n}\n"
        )
    );
    let items = with(
        &rt,
        only(&rt, alloc, constant(&rt, alloc, true)),
        constant(&rt, alloc, false),
    );
    let module = made(&rt, item_mod(alloc, false, named(&rt, alloc, "m"), items));
    assert!(&rt;
        is_printed(
            &rt,
            alloc,
            module,
            "mod m {\n    pub const C: u8 = 1;\n    const C: u8 = 1;\n}\n"
        )
    );
}

#[test]
fn documentation(rt: HostRuntime) {
    let alloc = rt.alloc();
    let rows =
        "→///§ a→/// a§*/→///*/§ a\n b→/** a\n b*/§/a→#[doc = \"/a\"]§a →#[doc = \"a \"]§a\r→#[doc = \"a\\r\"]§a\n*/\"→#[doc = \"a\\n*/\\\"\"]";
    for row in rows.split(BETWEEN) {
        let (text, wanted) = parts(row);
        let item = made(
            &rt,
            with_doc(alloc, constant(&rt, alloc, false), text.as_bytes()),
        );
        assert!(&rt; is_documented(&rt, alloc, item, wanted), "{row}");
    }
    let first = made(&rt, with_doc(alloc, constant(&rt, alloc, false), b" a"));
    let second = made(&rt, with_doc(alloc, first, b" b"));
    assert!(&rt; is_documented(&rt, alloc, second, "/// a\n/// b"));
    assert!(&rt;
        matches!(
            with_doc(alloc, constant(&rt, alloc, true), b"\xff"),
            Err(BuildError::BadText)
        )
    );
}

/// Whether an item is the constant `C` with documentation that is written so.
fn is_documented(rt: &impl Abort, alloc: Global, item: BuiltItem, wanted: &str) -> bool {
    match printed(rt, alloc, item) {
        Some(text) => text
            .as_bytes()
            .strip_suffix(b"\nconst C: u8 = 1;\n".as_slice())
            == Some(wanted.as_bytes()),
        None => false,
    }
}
