//! Each request for memory that a call makes is refused in turn, and is answered as an error. A call that has a thread of its own
//! asks for that thread's memory in ways that aren't refused, so this is of the crate without the feature `std`.
#![cfg(not(feature = "std"))]
mod refusing;
mod trees;

use froesaffron::build::*;
use froesaffron::tree::{FREE, Global, List};
use froesaffron::{Cause, EditError, Error, Items, format, is_loose, map, parenthesize, read, unparse};
use refusing::with_refusal;
use trees::{TREES, constant};

const SOURCE: &str = "//! A file.\nuse a::{b, c};\nimpl<T: Clone> A<T> where T: B { fn f(&self, c: [u8; 2]) -> Option<Vec<u8>> { \
    let d = match c { [a, b] if a > b => vec![a; 3], _ => { return None; } }; Some(d.iter().map(|x| x + 1).collect()) } }";

/// Refuses each request in turn, and answers how many there were and what came when none was refused.
fn each_refused<T>(call: impl Fn() -> Result<T, Error>) -> (usize, T) {
    let mut granted = 0;
    loop {
        match with_refusal(granted, &call) {
            Ok(answer) => return (granted, answer),
            Err(error) => assert_eq!((error.cause(), error.to_string().as_str()), (Cause::NoMemory, "no memory")),
        }
        granted += 1;
    }
}

#[test]
fn each_refused_request_is_an_error() {
    let (requests, text) = each_refused(|| format(SOURCE));
    assert_eq!(text, format(SOURCE).unwrap());
    assert!(requests > 50);
    let empty = File { shebang: None, attrs: List::new(Global), items: List::new(Global) };
    assert_eq!(each_refused(|| unparse(&empty)).1, "");
}

#[test]
fn each_refused_request_of_a_call_that_reads_is_an_error() {
    let text = format(SOURCE).unwrap();
    assert_eq!(unparse(&each_refused(|| read(SOURCE)).1), Ok(text.clone()));
    let returned = SOURCE.replace('\n', "\r\n");
    let (requests, mapped) = each_refused(|| map(&returned));
    assert!(requests > 50);
    assert_eq!((mapped.text(), mapped.pairs().next().map(|pair| pair.source)), (text.as_str(), Some(0..11)));
    let (_, items) = each_refused(|| Items::new(SOURCE));
    assert_eq!(each_refused(|| items.whole()).1, text);
}

#[test]
fn a_source_is_refused_though_memory_to_look_further_is_wanting() {
    let source = "fn a_name_that_is_too_long_to_be_kept_without_memory() { b c }";
    let whole = format(source).unwrap_err();
    assert_eq!(whole.furthest().map(|place| place.column), Some(60));
    let mut granted = 0;
    let mut seen = [0; 2];
    loop {
        match with_refusal(granted, || format(source)).unwrap_err() {
            error if error == whole => break,
            error if error.cause() == Cause::NoMemory => seen[0] += 1,
            error => {
                assert_eq!((error.cause(), error.line(), error.column(), error.furthest()), (Cause::NoItem, 1, 1, None));
                seen[1] += 1;
            }
        }
        granted += 1;
    }
    assert!(seen[0] > 3 && seen[1] > 3);
}

#[test]
fn each_refused_request_of_an_edit_changes_nothing() {
    let text = format(SOURCE).unwrap();
    type Edit = fn(&mut Items) -> Result<(), EditError>;
    let edits: [Edit; 2] = [
        |items| items.insert(1, "struct A { a: Vec<u8> }"),
        |items| items.replace(1, "struct A { a: Vec<u8> }"),
    ];
    for edit in edits {
        let mut items = Items::new(SOURCE).unwrap();
        let mut granted = 0;
        while let Err(why) = with_refusal(granted, || edit(&mut items)) {
            assert!(matches!(why, EditError::Refused(error) if error.cause() == Cause::NoMemory));
            assert_eq!((items.whole(), unparse(items.file())), (Ok(text.clone()), Ok(text.clone())));
            granted += 1;
        }
        assert!(granted > 5);
        assert_eq!(items.output(1), Some("struct A {\n    a: Vec<u8>,\n}\n"));
    }
}

#[test]
fn each_refused_request_of_a_call_over_an_expression_is_an_error() {
    for (tree, text) in TREES {
        let (of_tree, lacking) = each_refused(|| Ok(tree()?));
        let (requests, loose) = each_refused(|| is_loose(&lacking));
        assert!(loose && requests > 10);
        let (of_both, made) = each_refused(|| parenthesize(tree()?, FREE));
        // Each pair that is put in asks once.
        assert_eq!(of_both - of_tree, text.matches('(').count());
        assert_eq!(unparse(&constant(made).unwrap()), Ok(format!("const A: T = {text};\n")));
    }
}

/// A name that is too long to be kept without memory.
const LONG_NAME: &str = "a_name_that_is_too_long_to_be_kept_without_memory";
/// A path of two such.
const LONG_PATH: &str = "a_name_that_is_too_long_to_be_kept_without_memory::\
                         a_name_that_is_too_long_to_be_kept_without_memory";

fn path() -> Result<BuiltExpr, BuildError> {
    expr_path(LONG_PATH)
}

/// A file in which each call has a part.
fn built() -> Result<File, BuildError> {
    let of = || type_path(LONG_NAME, [type_ref(false, type_tuple([])?)?]);
    let text = expr_str("a text that is too long to be kept without memory\n")?;
    let literal = expr_struct(LONG_PATH, [field(LONG_NAME, text)?])?;
    let sum = expr_binary(Op::Add, literal, expr_int(u128::MAX)?)?;
    let method = expr_method(path()?, LONG_NAME, [path()?])?;
    let called = expr_call(expr_field(sum, LONG_NAME)?, [method])?;
    let stmts = [stmt_let(LONG_NAME, Some(of()?), called)?];
    let inner = block([stmt_expr(path()?)?], Some(path()?))?;
    let body = block(stmts, Some(expr_if(path()?, inner, Some(block([], Some(path()?))?))?))?;
    let function = item_fn(true, LONG_NAME, [param(LONG_NAME, of()?)?], Some(of()?), body)?;
    let structure = item_struct(true, LONG_NAME, [param(LONG_NAME, of()?)?])?;
    let constant = item_const(true, LONG_NAME, of()?, path()?)?;
    let text = "a text that is too long to be kept without memory ";
    let items = [
        with_doc(function, " A text that is too long to be kept without memory.")?,
        with_doc(structure, text)?,
        with_doc(constant, text)?,
    ];
    file([item_mod(true, LONG_NAME, items)?])
}

#[test]
fn each_refused_request_of_a_name_that_is_none_is_an_error() {
    assert_eq!(with_refusal(0, || name("a b")), Err(BuildError::NoMemory));
    assert_eq!(with_refusal(1, || name("a b")), Err(BuildError::BadName("a b".to_string())));
}

#[test]
fn each_refused_request_of_a_call_that_builds_is_an_error() {
    let mut granted = 0;
    let file = loop {
        match with_refusal(granted, built) {
            Ok(file) => break file,
            Err(why) => assert_eq!(why, BuildError::NoMemory),
        }
        granted += 1;
    };
    assert!(granted > 80);
    assert_eq!(unparse(&file), unparse(&built().unwrap()));
}
