//! Trees as values: they are cloned, compared and shown.
use froesaffron::build::*;
use froesaffron::tree::*;
use froesaffron::{unparse, Cause};
use std::fmt::Debug;

/// The tree of a source.
fn read(source: &str) -> File {
    froesaffron::read(source).unwrap()
}

/// Asks whether each of these types is a value.
macro_rules! are_values {
    ($($ty:ty),* $(,)?) => {
        $(is_value::<$ty>();)*
    };
}

fn is_value<T: Clone + Debug + Eq>() {}

#[test]
#[rustfmt::skip]
fn each_type_is_a_value() {
    are_values!(
        Abi, Alias, Arg, Args, Arm, Attr, Binder, Block, Bound, Boxed<Expr>, Branch, Capture, ClosureParam, Condition, ConstArg,
        ConstDefault, Constraint, Delim, Enum, Expr, ExternCrate, Field, FieldExpr, FieldPat, Fields, File, FnHead, FuncParam,
        GenericParam, Generics, GivenName, Global, Group, ImplHead, Item, ItemKind, Kind, Lifetime, LifetimeParam, Link, List<Expr>,
        Listed, Literal, MacroCall, MetaInput, MetaPath, Name, NoMemory, Op, Param, ParamKind, Pat, PatPlace, PatValue, Path,
        PathStart, PathStyle, Place, Predicate, Prefix, Safety, SimplePath, Site, SpanEnd, Start, Step, Stmt, Struct, Text, Tokens,
        TraitHead, TraitRef, TupleField, Ty, TypePlace, Union, UseEnd, UseTree, ValueHead, Variant, Vis, Wheres, Word,
        BuildError, BuiltBlock, BuiltExpr, BuiltField, BuiltItem, BuiltName, BuiltParam, BuiltPath, BuiltStmt, BuiltType, NamedExpr,
        NamedType,
    );
}

/// Sources that read to different trees, some of which differ in one word.
const SOURCES: [&str; 24] = [
    "",
    "#![a]",
    "//! a",
    "//! b",
    "struct A;",
    "struct B;",
    "pub struct A;",
    "struct r#A;",
    "struct A {}",
    "struct A { b: C }",
    "struct A { pub b: C }",
    "enum A<'a, T: B + ?Sized, const N: usize> where T: C { D(&'a T), E { f: [u8; N] }, G = 1 }",
    "use a::{b, c as d, *};",
    "impl<T> A for B<T> { const C: u8 = 1; fn f(&mut self) -> impl D {} }",
    "trait A: B { type C; fn f() where Self: D; }",
    "fn f() { a(b, c); }",
    "fn f() { a(b, d); }",
    "fn f() { a(b, c) }",
    "fn f() { for a in 0..1 { if let Some(b) = c && d { break 'e; } else { match f { 1..=2 | _ if g => {} } } } }",
    "fn f() { a!(b { c }, [\"d\"]); }",
    "fn f() { a!(b { c }, [\"e\"]); }",
    "fn f() { a.b::<C>(|d| -e[0]? as F).await = S { g, ..h }; }",
    "mod a { extern \"C\" { static B: u8; } macro_rules! c { () => {} } }",
    "const A_NAME_OF_MORE_THAN_TWENTY_TWO_BYTES: &str = \"a text of more than twenty-two bytes\";",
];

#[test]
fn trees_are_equal_where_their_sources_are() {
    let trees: Vec<File> = SOURCES.into_iter().map(read).collect();
    for (at, tree) in trees.iter().enumerate() {
        let copy = tree.clone();
        assert_eq!(copy, *tree);
        assert_eq!(unparse(&copy), unparse(tree));
        for (other_at, other) in trees.iter().enumerate() {
            assert_eq!(copy == *other, at == other_at, "{} {}", SOURCES[at], SOURCES[other_at]);
            assert_eq!(
                format!("{copy:?}") == format!("{other:?}"),
                at == other_at,
                "{} {}",
                SOURCES[at],
                SOURCES[other_at]
            );
        }
    }
}

#[test]
fn a_tree_is_shown_by_what_it_holds() {
    assert_eq!(
        format!("{:?}", read("mod a { struct B; }").items),
        "[Item { attrs: [], vis: Inherited, kind: Module { name: Name { raw: false, text: \"a\" }, attrs: [], items: [Item { \
         attrs: [], vis: Inherited, kind: Struct { item: Struct { name: Name { raw: false, text: \"B\" }, generics: Generics { \
         params: [] }, fields: Unit, wheres: Wheres { predicates: [] } } } }] } }]"
    );
    let text = |bytes| format!("{:?}", Text::from_bytes(Global, bytes).unwrap());
    assert_eq!(text(b"a\"\n"), r#""a\"\n""#);
    assert_eq!(text(b"a\xff"), "\"a\u{fffd}\"");
}

#[test]
fn texts_and_lists_are_equal_wherever_they_stand() {
    let short = Text::from_bytes(Global, b"0123456789012345678901").unwrap();
    let mut grown = Text::new(Global);
    let mut list = List::new(Global);
    for byte in b"0123456789012345678901" {
        assert_ne!(grown, short);
        grown.push(*byte).unwrap();
        assert!(list.push(*byte).is_ok());
    }
    assert_eq!(grown, short);
    grown.push(b'2').unwrap();
    assert_ne!(grown, short);
    assert_eq!(grown, Text::from_bytes(Global, b"01234567890123456789012").unwrap());
    assert_eq!(grown.clone().as_bytes(), b"01234567890123456789012");
    // The clone of a list has room for its items alone, and is equal.
    assert_eq!(list.clone(), list);
    assert_eq!(list.clone().as_slice(), list.as_slice());
}

#[test]
fn a_copy_that_is_changed_leaves_the_tree_as_it_was() {
    let tree = read("struct A;");
    let mut copy = tree.clone();
    copy.items.as_mut_slice()[0].vis = Vis::Public;
    assert_ne!(copy, tree);
    assert_eq!(unparse(&tree).unwrap(), "struct A;\n");
    assert_eq!(unparse(&copy).unwrap(), "pub struct A;\n");
}

#[test]
fn a_token_list_without_a_partner_is_not_written() {
    for kind in [Kind::Opener(Delim::Paren), Kind::Closer(Delim::Brace)] {
        let mut file = read("a!(b);");
        let call = match file.items.as_mut_slice()[0].kind.get_mut() {
            ItemKind::Call { call } => call,
            _ => panic!("no macro call"),
        };
        let mut tokens = List::new(Global);
        let text =
            Text::from_bytes(Global, if kind == Kind::Opener(Delim::Paren) { b"(" } else { b"}" })
                .unwrap();
        assert!(tokens.push(Listed::Token { kind, text, joint: false }).is_ok());
        call.tokens.tokens = Tokens::new(tokens);
        assert_eq!(unparse(&file).unwrap_err().cause(), Cause::NotWritten);
    }
}

#[test]
#[cfg(feature = "std")]
fn the_deepest_trees_are_values() {
    let forms = [
        ("fn f() {", "if a {", "", "}", 253, "}"),
        ("fn f() {", "fn f() {", "", "}", 253, "}"),
        ("fn f() {", "|a| {", "b", "}", 127, "}"),
        ("fn f() {", "match a { b => {", "", "}}", 126, "}"),
        ("mod a {", "mod a {", "", "}", 254, "}"),
        ("type A = ", "A<", "A", ">", 253, ";"),
        ("fn f() { let ", "A(", "b", ")", 252, " = c; }"),
    ];
    let thread = std::thread::Builder::new().stack_size(8 * 1024 * 1024).spawn(move || {
        for (head, before, core, behind, levels, tail) in forms {
            let tree = read(&format!(
                "{head}{}{core}{}{tail}",
                before.repeat(levels),
                behind.repeat(levels)
            ));
            let copy = tree.clone();
            assert_eq!(copy, tree);
            assert_eq!(format!("{copy:?}"), format!("{tree:?}"));
        }
    });
    thread.unwrap().join().unwrap();
}
