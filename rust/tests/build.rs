//! The calls that build files: the text of what each makes, why it refuses, how deep nodes may be, and that whatever is built reads back.
mod draws;

use draws::Draw;
use froesaffron::build::{self, raw, *};
use froesaffron::tree::Global;
use froesaffron::{Cause, format, unparse};

fn named(text: &str) -> BuiltName {
    name(text).unwrap()
}

fn ty(path: &str) -> BuiltType {
    build::ty(path).unwrap()
}

fn type_with(path: &str, args: impl IntoIterator<Item = BuiltType>) -> BuiltType {
    type_path(path, args).unwrap()
}

fn path(path: &str) -> BuiltExpr {
    expr_path(path).unwrap()
}

fn int(value: u128) -> BuiltExpr {
    expr_int(value).unwrap()
}

fn binary(op: Op, left: BuiltExpr, right: BuiltExpr) -> BuiltExpr {
    expr_binary(op, left, right).unwrap()
}

fn with_field(base: BuiltExpr, field: &str) -> BuiltExpr {
    expr_field(base, named(field)).unwrap()
}

fn method(base: BuiltExpr, method: &str, args: impl IntoIterator<Item = BuiltExpr>) -> BuiltExpr {
    expr_method(base, named(method), args).unwrap()
}

fn call(base: BuiltExpr, args: impl IntoIterator<Item = BuiltExpr>) -> BuiltExpr {
    expr_call(base, args).unwrap()
}

/// A struct literal with one field.
fn literal(name: &str, field_name: &str, value: BuiltExpr) -> BuiltExpr {
    expr_struct(name, [field(field_name, value).unwrap()]).unwrap()
}

/// A struct literal without fields.
fn empty_literal() -> BuiltExpr {
    expr_struct("S", []).unwrap()
}

fn body(stmts: impl IntoIterator<Item = BuiltStmt>, tail: Option<BuiltExpr>) -> BuiltBlock {
    block(stmts, tail).unwrap()
}

fn empty() -> BuiltBlock {
    body([], None)
}

fn if_of(test: BuiltExpr) -> BuiltExpr {
    expr_if(test, empty(), None).unwrap()
}

fn constant(ty: BuiltType, value: BuiltExpr) -> BuiltItem {
    item_const(false, "A", ty, value).unwrap()
}

/// The function `f` of this body.
fn function(body: BuiltBlock) -> BuiltItem {
    item_fn(false, "f", [], None, body).unwrap()
}

fn module(items: impl IntoIterator<Item = BuiltItem>) -> Result<BuiltItem, BuildError> {
    item_mod(false, "a", items)
}

fn file_of(items: impl IntoIterator<Item = BuiltItem>) -> File {
    file(items).unwrap()
}

/// The text of a file of these items, which is laid out again to itself.
fn text_of(items: impl IntoIterator<Item = BuiltItem>) -> String {
    let text = unparse(&file_of(items)).unwrap();
    assert_eq!(format(&text).as_ref(), Ok(&text));
    text
}

/// How an expression is written as the value of a constant.
fn value(expr: BuiltExpr) -> String {
    let text = text_of([constant(ty("B"), expr)]);
    text.strip_prefix("const A: B = ").unwrap().strip_suffix(";\n").unwrap().to_string()
}

/// How a type is written as that of a constant.
fn type_text(ty: BuiltType) -> String {
    let text = text_of([constant(ty, path("b"))]);
    text.strip_prefix("const A: ").unwrap().strip_suffix(" = b;\n").unwrap().to_string()
}

#[test]
fn a_text_is_a_name_or_none() {
    let named = |text: &str| name(text).map(|made| made.node().raw);
    for text in ["a", "A1", "é", "__", "union", "macro_rules", "raw", "safe", "auto", "dyn1"] {
        assert_eq!(named(text), Ok(false), "{text}");
    }
    for text in ["type", "fn", "true", "false", "await", "async", "dyn", "try", "yield", "macro", "gen"] {
        assert_eq!(named(text), Ok(text != "gen"), "{text}");
    }
    for text in ["self", "Self", "super", "crate", "_", "", "a b", " a", "a ", "1", "r#a", "r#type", "'a", "a'", "a-b", "a\n"] {
        assert_eq!(named(text), Err(BuildError::BadName(text.to_string())), "{text}");
    }
    assert_eq!(raw::name(Global, b"a\xff").err(), Some(raw::BuildError::BadName));
}

#[test]
fn a_keyword_is_raw_wherever_it_is_a_name() {
    let fields = [param("type", ty("fn")).unwrap()];
    let structure = item_struct(false, "struct", fields).unwrap();
    assert_eq!(text_of([structure]), "struct r#struct {\n    r#type: r#fn,\n}\n");
    let test = method(with_field(path("in::a::mod"), "use"), "loop", [literal("match", "as", path("true"))]);
    let stmts = [stmt_let("let", None, test).unwrap()];
    let params = [param("ref", ty("a::impl")).unwrap()];
    let made = item_fn(false, "fn", params, None, body(stmts, None)).unwrap();
    let module = item_mod(false, "mod", [made]).unwrap();
    assert_eq!(
        text_of([module]),
        "mod r#mod {\n    fn r#fn(r#ref: a::r#impl) {\n        let r#let = r#in::a::r#mod.r#use.r#loop(r#match { r#as: r#true });\n    }\n}\n"
    );
}

#[test]
fn types_are_paths_references_and_tuples() {
    assert_eq!(type_text(ty("a")), "a");
    assert_eq!(type_text(ty("a::b::C")), "a::b::C");
    assert_eq!(type_text(type_with("a::Map", [ty("B"), type_with("Vec", [ty("u8")])])), "a::Map<B, Vec<u8>>");
    assert_eq!(type_text(type_ref(false, ty("A")).unwrap()), "&A");
    assert_eq!(type_text(type_ref(true, type_ref(false, ty("A")).unwrap()).unwrap()), "&mut &A");
    assert_eq!(type_text(type_tuple([]).unwrap()), "()");
    assert_eq!(type_text(type_tuple([ty("A")]).unwrap()), "(A,)");
    assert_eq!(type_text(type_tuple([ty("A"), ty("B")]).unwrap()), "(A, B)");
}

#[test]
fn numbers_are_decimal() {
    assert_eq!(value(int(0)), "0");
    assert_eq!(value(int(1_234_567)), "1234567");
    assert_eq!(value(int(u128::MAX)), "340282366920938463463374607431768211455");
}

/// The text that a string literal stands for.
fn text_in(literal: &str) -> String {
    let mut characters = literal.strip_prefix('"').unwrap().strip_suffix('"').unwrap().chars();
    let mut text = String::new();
    while let Some(character) = characters.next() {
        text.push(match character {
            '\\' => match characters.next() {
                Some('n') => '\n',
                Some('r') => '\r',
                Some(escaped @ ('"' | '\\')) => escaped,
                other => panic!("escaped: {other:?}"),
            },
            '"' | '\r' | '\n' => panic!("not escaped: {character:?}"),
            _ => character,
        });
    }
    text
}

#[test]
fn a_string_reads_back_to_its_text() {
    let written = |text: &str| value(expr_str(text).unwrap());
    assert_eq!(written(""), r#""""#);
    assert_eq!(written("a\"b\\c\nd\re\tf"), "\"a\\\"b\\\\c\\nd\\re\tf\"");
    // A backslash before a line end would leave out what follows it.
    assert_eq!(written("\\\n a"), "\"\\\\\\n a\"");
    for character in (0..0x180).filter_map(char::from_u32).chain("\u{85}\u{2028}\u{2029}\u{feff}\u{fffd}\u{10ffff}".chars()) {
        for text in [format!("{character}"), format!("{character}\n "), format!("\\{character}\""), format!("*/{character}{{}}")]
        {
            assert_eq!(text_in(&written(&text)), text);
        }
    }
    assert_eq!(raw::expr_str(Global, b"\xff").err(), Some(raw::BuildError::BadText));
    assert_eq!(raw::expr_str(Global, b"a\xc3").err(), Some(raw::BuildError::BadText));
}

#[test]
fn operands_are_put_in_parentheses_where_they_must_be() {
    let sum = || binary(Op::Add, path("a"), path("b"));
    assert_eq!(value(sum()), "a + b");
    assert_eq!(value(binary(Op::Mul, sum(), int(2))), "(a + b) * 2");
    assert_eq!(value(binary(Op::Mul, int(2), sum())), "2 * (a + b)");
    assert_eq!(value(binary(Op::Add, sum(), path("c"))), "(a + b) + c");
    assert_eq!(value(binary(Op::EqEq, empty_literal(), if_of(path("a")))), "(S {}) == (if a {})");
    assert_eq!(value(binary(Op::Sub, call(path("a"), []), with_field(path("b"), "c"))), "a() - b.c");
    assert_eq!(value(with_field(sum(), "c")), "(a + b).c");
    assert_eq!(value(with_field(empty_literal(), "c")), "(S {}).c");
    assert_eq!(value(with_field(int(1), "c")), "1.c");
    assert_eq!(value(method(if_of(path("a")), "b", [sum(), if_of(path("c"))])), "(if a {}).b(a + b, if c {})");
    assert_eq!(value(call(sum(), [int(1), path("c")])), "(a + b)(1, c)");
    assert_eq!(value(call(empty_literal(), [])), "(S {})()");
}

#[test]
fn each_operator_between_two_values_is_written() {
    let operators = [
        (Op::OrOr, "||"),
        (Op::AndAnd, "&&"),
        (Op::EqEq, "=="),
        (Op::Differ, "!="),
        (Op::Less, "<"),
        (Op::Greater, ">"),
        (Op::LessEq, "<="),
        (Op::GreaterEq, ">="),
        (Op::BitOr, "|"),
        (Op::BitXor, "^"),
        (Op::BitAnd, "&"),
        (Op::Shl, "<<"),
        (Op::Shr, ">>"),
        (Op::Add, "+"),
        (Op::Sub, "-"),
        (Op::Mul, "*"),
        (Op::Div, "/"),
        (Op::Rem, "%"),
    ];
    for (op, text) in operators {
        assert_eq!(value(binary(op, path("a"), path("b"))), format!("a {text} b"));
    }
}

#[test]
fn steps_follow_one_another() {
    assert_eq!(value(with_field(with_field(path("a::b"), "c"), "d")), "a::b.c.d");
    assert_eq!(value(method(with_field(path("a"), "b"), "c", [int(1), int(2)])), "a.b.c(1, 2)");
    assert_eq!(value(call(call(path("a"), [path("b")]), [])), "a(b)()");
    assert_eq!(value(with_field(call(path("a"), []), "b")), "a().b");
    assert_eq!(value(call(method(path("a"), "b", []), [])), "a.b()()");
    // Behind a field a call would be one of a method.
    assert_eq!(value(call(with_field(path("a"), "b"), [path("c")])), "(a.b)(c)");
    assert_eq!(value(call(with_field(call(with_field(path("a"), "b"), []), "c"), [])), "((a.b)().c)()");
}

#[test]
fn struct_literals_have_their_fields() {
    assert_eq!(value(empty_literal()), "S {}");
    assert_eq!(value(literal("a::S", "b", binary(Op::Add, int(1), int(2)))), "a::S { b: 1 + 2 }");
    let fields = [("a", int(1)), ("b", empty_literal())].map(|(name, value)| field(named(name), value).unwrap());
    assert_eq!(value(expr_struct("S", fields).unwrap()), "S { a: 1, b: S {} }");
}

#[test]
fn what_an_if_tests_is_put_in_parentheses_where_it_must_be() {
    assert_eq!(value(if_of(path("a"))), "if a {}");
    assert_eq!(value(if_of(binary(Op::AndAnd, path("a"), path("b")))), "if a && b {}");
    assert_eq!(value(if_of(call(path("a"), [empty_literal()]))), "if a(S {}) {}");
    assert_eq!(value(if_of(literal("S", "a", int(1)))), "if (S { a: 1 }) {}");
    assert_eq!(value(if_of(binary(Op::EqEq, path("a"), empty_literal()))), "if a == (S {}) {}");
    assert_eq!(value(if_of(if_of(path("a")))), "if (if a {}) {}");
    let both = expr_if(path("a"), body([], Some(int(1))), Some(body([], Some(int(2))))).unwrap();
    assert_eq!(value(both), "if a { 1 } else { 2 }");
    let chain = expr_if(path("a"), empty(), Some(body([], Some(if_of(path("b")))))).unwrap();
    assert_eq!(value(chain), "if a {} else { if b {} }");
    let then = body([stmt_expr(path("b")).unwrap()], None);
    let long = expr_if(path("a"), then, Some(empty())).unwrap();
    assert_eq!(value(long), "if a {\n    b;\n} else {}");
}

#[test]
fn statements_stand_in_blocks() {
    let stmts = [
        stmt_let("a", None, int(1)).unwrap(),
        stmt_let("b", Some(ty("C")), binary(Op::Add, path("a"), int(2))).unwrap(),
        stmt_expr(call(path("d"), [path("b")])).unwrap(),
        stmt_expr(if_of(path("e"))).unwrap(),
        stmt_expr(binary(Op::Sub, if_of(path("f")), int(1))).unwrap(),
        stmt_expr(empty_literal()).unwrap(),
        stmt_expr(with_field(empty_literal(), "g")).unwrap(),
    ];
    assert_eq!(
        text_of([function(body(stmts, Some(if_of(path("h")))))]),
        "fn f() {\n    let a = 1;\n    let b: C = a + 2;\n    d(b);\n    if e {};\n    (if f {}) - 1;\n    S {};\n    (S {}).g;\n    if h {}\n}\n"
    );
    assert_eq!(text_of([function(empty())]), "fn f() {}\n");
    let tail = binary(Op::Mul, binary(Op::Add, path("a"), path("b")), int(2));
    assert_eq!(text_of([function(body([], Some(tail)))]), "fn f() {\n    (a + b) * 2\n}\n");
}

#[test]
fn items_stand_in_files() {
    let params =
        || [param("a", ty("B")).unwrap(), param("c", type_ref(false, ty("D")).unwrap()).unwrap()];
    for (public, vis) in [(false, ""), (true, "pub ")] {
        let items = [
            item_struct(public, "S", params()).unwrap(),
            item_struct(public, "T", []).unwrap(),
            item_const(public, "C", ty("u8"), int(1)).unwrap(),
            item_fn(public, "f", params(), Some(ty("E")), body([], Some(path("a")))).unwrap(),
            item_mod(public, "m", [constant(ty("B"), int(2)), function(empty())]).unwrap(),
            item_mod(public, "n", []).unwrap(),
        ];
        assert_eq!(
            text_of(items),
            format!(
                "{vis}struct S {{\n    a: B,\n    c: &D,\n}}\n{vis}struct T {{}}\n{vis}const C: u8 = 1;\n\
                 {vis}fn f(a: B, c: &D) -> E {{\n    a\n}}\n{vis}mod m {{\n    const A: B = 2;\n    fn f() {{}}\n}}\n{vis}mod n {{}}\n"
            )
        );
    }
    assert_eq!(text_of([]), "");
}

#[test]
fn documentation_is_written_as_it_may_be() {
    let fields = [param("b", type_with("Vec", [ty("u8")])).unwrap()];
    let structure = item_struct(true, "A", fields).unwrap();
    let structure = with_doc(structure, " x").unwrap();
    assert_eq!(text_of([structure]), "/// x\npub struct A {\n    b: Vec<u8>,\n}\n");
    let rows = [
        ("", "///"),
        ("*/", "///*/"),
        (" \"é\"\\", "/// \"é\"\\"),
        (" a\n * b\n ", "/** a\n * b\n */"),
        ("a /* b */\n", "/**a /* b */\n*/"),
        ("/a", "#[doc = \"/a\"]"),
        ("a ", "#[doc = \"a \"]"),
        ("a\r", "#[doc = \"a\\r\"]"),
        ("a\n*/", "#[doc = \"a\\n*/\"]"),
        ("*\n\"\\", "#[doc = \"*\\n\\\"\\\\\"]"),
    ];
    for (text, written) in rows {
        let documented = with_doc(function(empty()), text).unwrap();
        assert_eq!(text_of([documented]), format!("{written}\nfn f() {{}}\n"));
    }
    let twice = with_doc(with_doc(module([]).unwrap(), " a").unwrap(), " b").unwrap();
    assert_eq!(text_of([twice]), "/// a\n/// b\nmod a {}\n");
    let refused = raw::with_doc(Global, function(empty()), b"a\xff");
    assert_eq!(refused.err(), Some(raw::BuildError::BadText));
}

#[test]
fn what_is_built_can_be_looked_at() {
    assert_eq!(named("a").node().text.as_bytes(), b"a");
    let given = field("a", path("b")).unwrap();
    assert_eq!(given.node().name.text.as_bytes(), b"a");
    let given = param("c", ty("D")).unwrap();
    assert_eq!(given.node().name.text.as_bytes(), b"c");
    assert_eq!(body([stmt_expr(int(1)).unwrap()], Some(int(2))).node().stmts.as_slice().len(), 2);
}

/// How often a call makes something anew of what it made, before it refuses that as too deep. It is
/// asked 300 times at most.
fn levels<T>(first: T, mut call: impl FnMut(T) -> Result<T, BuildError>) -> usize {
    let mut made = first;
    for count in 0..300 {
        match call(made) {
            Ok(next) => made = next,
            Err(why) => {
                assert_eq!(why, BuildError::TooDeep);
                return count;
            }
        }
    }
    panic!("a node of 300 levels isn't refused")
}

/// What a call makes anew so often.
fn repeated<T>(count: usize, first: T, mut call: impl FnMut(T) -> Result<T, BuildError>) -> Result<T, BuildError> {
    (0..count).try_fold(first, |made, _| call(made))
}

fn over_module(made: BuiltItem) -> Result<BuiltItem, BuildError> {
    module([made])
}

fn over_call(made: BuiltExpr) -> Result<BuiltExpr, BuildError> {
    expr_call(path("a"), [made])
}

fn over_operator(made: BuiltExpr) -> Result<BuiltExpr, BuildError> {
    expr_binary(Op::Add, made, path("a"))
}

fn over_if(made: BuiltExpr) -> Result<BuiltExpr, BuildError> {
    expr_if(path("a"), block([], Some(made))?, None)
}

fn over_else(made: BuiltExpr) -> Result<BuiltExpr, BuildError> {
    expr_if(path("a"), empty(), Some(block([stmt_expr(made)?], None)?))
}

fn over_literal(made: BuiltExpr) -> Result<BuiltExpr, BuildError> {
    expr_struct("S", [field("a", made)?])
}

fn over_reference(made: BuiltType) -> Result<BuiltType, BuildError> {
    type_ref(true, made)
}

#[test]
fn nodes_are_nested_as_deep_as_files_may_be() {
    // An empty module needs 1, and each around it one more: 256 stand within one another.
    assert_eq!(levels(module([]).unwrap(), over_module), 255);
    // A path needs 1, and a call one more than its arguments.
    assert_eq!(levels(path("a"), over_call), 255);
    // The same of a method's arguments, of those of a type, and of what is referred to.
    assert_eq!(levels(path("a"), |made| expr_method(path("a"), "b", [path("c"), made])), 255);
    assert_eq!(levels(ty("A"), |made| type_path("A", [ty("B"), made])), 255);
    assert_eq!(levels(ty("A"), over_reference), 255);
    // An empty tuple needs 1, as a struct literal without fields does.
    assert_eq!(levels(type_tuple([]).unwrap(), |made| type_tuple([made])), 255);
    assert_eq!(levels(empty_literal(), over_literal), 255);
    // The first operator needs 2. Each one over it takes it in parentheses, which are a node of their own: 2 for each, so 128 of them.
    assert_eq!(levels(path("a"), over_operator), 128);
    // Blocks aren't counted. An `if` with a path and an empty block needs 2, and each around it one more: 255 of them.
    assert_eq!(levels(if_of(path("a")), over_if), 254);
    assert_eq!(levels(if_of(path("a")), over_else), 254);
    // In a test an `if` is put in parentheses: 2 for each, on the 2 of the innermost.
    assert_eq!(levels(if_of(path("a")), |made| expr_if(made, empty(), None)), 127);
    // `(a.b)()` needs 4: a path, the field, its parentheses, the call. A further field is one more step of that, and the call over it takes 2 more.
    assert_eq!(levels(path("a"), |made| expr_call(expr_field(made, "b")?, [])), 127);
}

#[test]
fn steps_and_lists_are_no_deeper_for_being_long() {
    let made = (0..2000).fold(path("a"), |made, _| method(call(made, []), "b", []));
    assert_eq!(value(with_field(call(made, []), "c")).matches("()").count(), 4001);
}

#[test]
fn what_holds_a_node_is_one_level_deeper() {
    // A call as deep as may be, and one level less.
    let deepest = || repeated(255, path("a"), over_call).unwrap();
    let less = || repeated(254, path("a"), over_call).unwrap();
    let type_deepest = || repeated(255, ty("A"), over_reference).unwrap();
    let type_less = || repeated(254, ty("A"), over_reference).unwrap();
    let too_deep = Some(BuildError::TooDeep);
    assert_eq!(field("a", deepest()).err(), too_deep);
    assert!(field("a", less()).is_ok());
    assert_eq!(param("a", type_deepest()).err(), too_deep);
    assert!(param("a", type_less()).is_ok());
    assert_eq!(stmt_expr(deepest()).err(), too_deep);
    assert!(stmt_expr(less()).is_ok());
    assert_eq!(stmt_let("a", None, deepest()).err(), too_deep);
    assert_eq!(stmt_let("a", Some(type_deepest()), int(1)).err(), too_deep);
    assert!(stmt_let("a", Some(type_less()), less()).is_ok());
    assert_eq!(block([], Some(deepest())).err(), too_deep);
    assert!(block([], Some(less())).is_ok());
    assert_eq!(expr_if(deepest(), empty(), None).err(), too_deep);
    assert!(expr_if(less(), empty(), None).is_ok());
    assert_eq!(expr_field(repeated(128, path("a"), over_operator).unwrap(), "b").err(), too_deep);
    assert_eq!(item_const(false, "A", ty("B"), deepest()).err(), too_deep);
    assert_eq!(item_const(false, "A", type_deepest(), int(1)).err(), too_deep);
    assert!(item_const(false, "A", type_less(), less()).is_ok());
    assert_eq!(item_fn(false, "f", [], Some(type_deepest()), empty()).err(), too_deep);
    assert!(item_fn(false, "f", [], Some(type_less()), body([], Some(less()))).is_ok());
    // With documentation an item is no deeper.
    let modules = repeated(255, module([]).unwrap(), over_module).unwrap();
    assert!(with_doc(modules, " a").is_ok());
}

#[test]
#[cfg(feature = "std")]
fn the_deepest_items_are_written() {
    let of_type = constant(repeated(254, ty("A"), over_reference).unwrap(), int(1));
    let values = [
        repeated(254, path("a"), over_call).unwrap(),
        repeated(127, path("a"), over_operator).unwrap(),
        repeated(253, if_of(path("a")), over_if).unwrap(),
        repeated(253, if_of(path("a")), over_else).unwrap(),
        repeated(254, empty_literal(), over_literal).unwrap(),
    ];
    let modules = repeated(255, module([]).unwrap(), over_module).unwrap();
    let mut items = vec![of_type, modules];
    items.extend(values.map(|value| constant(ty("B"), value)));
    for item in items {
        text_of([item]);
    }
}

#[test]
#[cfg(feature = "std")]
fn a_long_body_is_written() {
    let stmts = (0..100_000).map(|number| stmt_let("a", None, int(number)).unwrap());
    let text = unparse(&file_of([function(body(stmts, None))])).unwrap();
    assert_eq!((text.lines().count(), text.lines().nth(100_000)), (100_002, Some("    let a = 99999;")));
}

#[test]
fn an_operator_that_assigns_makes_no_source() {
    let operators = [
        (Op::Set, "="),
        (Op::AddSet, "+="),
        (Op::SubSet, "-="),
        (Op::MulSet, "*="),
        (Op::DivSet, "/="),
        (Op::RemSet, "%="),
        (Op::XorSet, "^="),
        (Op::AndSet, "&="),
        (Op::OrSet, "|="),
        (Op::ShlSet, "<<="),
        (Op::ShrSet, ">>="),
        (Op::Upto, ".."),
        (Op::UptoEq, "..="),
    ];
    for (op, text) in operators {
        let why = expr_binary(op, path("a"), path("b")).unwrap_err();
        assert_eq!(why, BuildError::BadOperator(op));
        assert_eq!(why.to_string(), format!("no operator between two values: {text}"));
        // What would be made is no source.
        let made = raw::expr_binary(Global, op, path("a"), path("b")).unwrap();
        let file = file_of([constant(ty("B"), made)]);
        assert_eq!(unparse(&file).unwrap_err().cause(), Cause::NotWritten);
    }
}

#[test]
fn an_error_says_why() {
    assert_eq!(name("a b").unwrap_err().to_string(), "no name: \"a b\"");
    assert_eq!(name("\n").unwrap_err().to_string(), "no name: \"\\n\"");
    assert_eq!(BuildError::TooDeep.to_string(), "too deep");
    assert_eq!(BuildError::NoMemory.to_string(), "no memory");
    let error: Box<dyn std::error::Error + Send + Sync> = name("").unwrap_err().into();
    assert_eq!(error.to_string(), "no name: \"\"");
}

#[test]
fn each_call_with_a_name_says_which_is_none() {
    let bad = |text: &str| Some(BuildError::BadName(text.to_string()));
    assert_eq!(build::path(["a", "b c"]).err(), bad("b c"));
    assert_eq!(build::path(["", "a"]).err(), bad(""));
    assert_eq!(build::path::<&str>([]).err(), bad(""));
    assert_eq!(build::ty("a::1").err(), bad("1"));
    assert_eq!(build::ty("").err(), bad(""));
    assert_eq!(build::ty("::a").err(), bad(""));
    assert_eq!(build::ty("a::").err(), bad(""));
    assert_eq!(build::ty("a:b").err(), bad("a:b"));
    assert_eq!(build::ty("Vec<u8>").err(), bad("Vec<u8>"));
    assert_eq!(type_path("a:: b", []).err(), bad(" b"));
    assert_eq!(expr_path("self::a").err(), bad("self"));
    assert_eq!(expr_field(path("a"), "0").err(), bad("0"));
    assert_eq!(expr_method(path("a"), "b()", []).err(), bad("b()"));
    assert_eq!(expr_struct("Self", []).err(), bad("Self"));
    assert_eq!(field("'a", int(1)).err(), bad("'a"));
    assert_eq!(param("_", ty("A")).err(), bad("_"));
    assert_eq!(stmt_let("r#a", None, int(1)).err(), bad("r#a"));
    assert_eq!(item_struct(false, "A<B>", []).err(), bad("A<B>"));
    assert_eq!(item_const(false, "a.b", ty("A"), int(1)).err(), bad("a.b"));
    assert_eq!(item_fn(false, "a!", [], None, empty()).err(), bad("a!"));
    assert_eq!(item_mod(false, "a/b", []).err(), bad("a/b"));
}

#[test]
fn names_and_paths_are_given_as_texts_or_as_what_was_built() {
    let owned = String::from("b");
    assert_eq!(param(&owned, ty("C")), param("b", ty("C")));
    assert_eq!(param(named("b"), ty("C")), param("b", ty("C")));
    let of = type_path("std::vec::Vec", [ty("u8")]);
    assert_eq!(type_path(&String::from("std::vec::Vec"), [ty("u8")]), of);
    assert_eq!(type_path(build::path(["std", "vec", "Vec"]).unwrap(), [ty("u8")]), of);
    assert_eq!(type_path(build::path("std::vec::Vec".split("::")).unwrap(), vec![ty("u8")]), of);
    assert_eq!(build::ty(named("A")), build::ty("A"));
    assert_eq!(build::path([named("a"), named("b")]), build::path(["a", "b"]));
    assert_eq!(type_text(ty("in::type")), "r#in::r#type");
}

#[test]
fn what_is_built_is_a_value() {
    let made = binary(Op::Add, path("a"), int(1));
    assert_eq!(made.clone(), made);
    assert_ne!(made, binary(Op::Sub, path("a"), int(1)));
    assert_eq!(value(binary(Op::Mul, made.clone(), made)), "(a + 1) * (a + 1)");
    let structure = item_struct(true, "A", [param("b", ty("C")).unwrap()]).unwrap();
    assert_eq!(text_of([structure.clone(), structure.clone()]).matches("pub struct A").count(), 2);
    assert_eq!(format!("{:?}", named("type").node()), "Name { raw: true, text: \"type\" }");
    assert!(format!("{structure:?}").contains("text: \"b\""), "{structure:?}");
    assert_eq!(file_of([structure.clone()]), file_of([structure]));
}

/// Words that are special somewhere, and others.
const WORDS: [&str; 24] = [
    "a",
    "b2",
    "Some",
    "é",
    "type",
    "fn",
    "struct",
    "true",
    "union",
    "macro_rules",
    "raw",
    "safe",
    "auto",
    "gen",
    "await",
    "yield",
    "dyn",
    "async",
    "const",
    "move",
    "r",
    "b",
    "br",
    "c",
];
/// Texts of strings and documentation.
const TEXTS: [&str; 12] = ["", " a", "\"\\", "a\nb", " a\r\n", "*/", "/* */\n", "/", "*", "a ", "\u{feff}\u{2028}\0", "#[b]"];

/// A program that is drawn, of nodes so deep.
struct Program(Draw);

impl Program {
    fn word(&mut self) -> &'static str {
        WORDS[self.0.below(WORDS.len() as u64) as usize]
    }

    fn text(&mut self) -> &'static str {
        TEXTS[self.0.below(TEXTS.len() as u64) as usize]
    }

    fn name(&mut self) -> BuiltName {
        named(self.word())
    }

    /// A path of one name or more.
    fn path(&mut self) -> BuiltPath {
        let first = self.name();
        build::path([vec![first], self.some(Program::name)].concat()).unwrap()
    }

    fn public(&mut self) -> bool {
        self.0.below(2) == 0
    }

    /// As many as are drawn, up to three.
    fn some<T>(&mut self, mut one: impl FnMut(&mut Program) -> T) -> Vec<T> {
        let count = self.0.below(4);
        (0..count).map(|_| one(self)).collect()
    }

    fn maybe<T>(&mut self, one: impl FnOnce(&mut Program) -> T) -> Option<T> {
        (self.0.below(2) == 0).then(|| one(self))
    }

    fn ty(&mut self, depth: u64) -> BuiltType {
        match self.0.below(if depth == 0 { 1 } else { 4 }) {
            0 => type_path(self.path(), []),
            1 => type_path(self.path(), self.some(|it| it.ty(depth - 1))),
            2 => type_ref(self.public(), self.ty(depth - 1)),
            _ => type_tuple(self.some(|it| it.ty(depth - 1))),
        }
        .unwrap()
    }

    fn op(&mut self) -> Op {
        let ops = [
            Op::OrOr,
            Op::AndAnd,
            Op::EqEq,
            Op::Less,
            Op::GreaterEq,
            Op::BitOr,
            Op::BitAnd,
            Op::Shl,
            Op::Shr,
            Op::Sub,
            Op::Mul,
            Op::Rem,
        ];
        ops[self.0.below(ops.len() as u64) as usize]
    }

    fn expr(&mut self, depth: u64) -> BuiltExpr {
        match self.0.below(if depth == 0 { 3 } else { 12 }) {
            0 => expr_int(self.0.below(1000).into()),
            1 => expr_str(self.text()),
            2 => expr_path(self.path()),
            3 | 4 => expr_field(self.expr(depth - 1), self.name()),
            5 => expr_method(self.expr(depth - 1), self.name(), self.some(|it| it.expr(depth - 1))),
            6 | 7 => expr_call(self.expr(depth - 1), self.some(|it| it.expr(depth - 1))),
            8 | 9 => expr_binary(self.op(), self.expr(depth - 1), self.expr(depth - 1)),
            10 => expr_struct(self.path(), self.some(|it| it.field(depth - 1))),
            _ => expr_if(self.expr(depth - 1), self.block(depth - 1), self.maybe(|it| it.block(depth - 1))),
        }
        .unwrap()
    }

    fn field(&mut self, depth: u64) -> BuiltField {
        field(self.name(), self.expr(depth)).unwrap()
    }

    fn param(&mut self) -> BuiltParam {
        param(self.name(), self.ty(2)).unwrap()
    }

    fn stmt(&mut self, depth: u64) -> BuiltStmt {
        match self.0.below(2) {
            0 => stmt_let(self.name(), self.maybe(|it| it.ty(1)), self.expr(depth)),
            _ => stmt_expr(self.expr(depth)),
        }
        .unwrap()
    }

    fn block(&mut self, depth: u64) -> BuiltBlock {
        block(self.some(|it| it.stmt(depth)), self.maybe(|it| it.expr(depth))).unwrap()
    }

    fn item(&mut self, depth: u64) -> BuiltItem {
        let item = match self.0.below(if depth == 0 { 3 } else { 4 }) {
            0 => item_struct(self.public(), self.name(), self.some(Program::param)),
            1 => item_const(self.public(), self.name(), self.ty(2), self.expr(4)),
            2 => item_fn(self.public(), self.name(), self.some(Program::param), self.maybe(|it| it.ty(2)), self.block(3)),
            _ => item_mod(self.public(), self.name(), self.some(|it| it.item(depth - 1))),
        };
        let item = item.unwrap();
        match self.0.below(3) {
            0 => with_doc(item, self.text()).unwrap(),
            _ => item,
        }
    }
}

#[test]
fn programs_that_are_drawn_read_back() {
    let mut program = Program(Draw(1));
    for _ in 0..500 {
        let items = program.some(|it| it.item(3));
        let text = unparse(&file(items).unwrap()).unwrap();
        assert_eq!(format(&text).as_ref(), Ok(&text));
    }
}
