//! The calls of the crate, on threads as small as Rust makes them, and in an unoptimised build too.
use froesaffron::tree::{Boxed, File, Global, Item, ItemKind, List, Name, Text, Vis};
use froesaffron::{Cause, check, format, format_bytes, unparse};

/// The cause, the offset, the line and the column of a refusal.
fn refusal(source: &[u8]) -> (Cause, usize, usize, usize) {
    let error = format_bytes(source).unwrap_err();
    (error.cause(), error.offset(), error.line(), error.column())
}

#[test]
fn each_refusal_has_its_place() {
    assert_eq!(refusal(b"struct A;\n\xff"), (Cause::NotUtf8, 10, 2, 1));
    assert_eq!(refusal(b"struct A;\r\n \\"), (Cause::NoToken, 11, 2, 2));
    assert_eq!(refusal(b"mod a { ("), (Cause::Unbalanced, 8, 1, 9));
    assert_eq!(refusal(b"\xef\xbb\xbfstruct A; struct"), (Cause::NoItem, 10, 1, 11));
}

#[test]
fn an_error_says_what_the_command_says() {
    assert_eq!(format("a\n  \\").unwrap_err().to_string(), "2:3: no token");
    let error: Box<dyn std::error::Error + Send + Sync> = format("}").unwrap_err().into();
    assert_eq!(error.to_string(), "1:1: unbalanced delimiter");
}

#[test]
fn check_tells_its_own_text_from_another() {
    assert_eq!(check("struct A;\n"), Ok(true));
    assert_eq!(check(b"struct A;"), Ok(false));
    assert_eq!(check("struct").unwrap_err().cause(), Cause::NoItem);
    assert_eq!(check(""), Ok(true));
}

/// Nested modules, so many.
fn modules(count: usize) -> File {
    let mut items = List::new(Global);
    for _ in 0..count {
        let name = Name { raw: false, text: Text::from_bytes(Global, b"a").unwrap() };
        let kind = Boxed::new(Global, ItemKind::Module { name, attrs: List::new(Global), items }).unwrap();
        items = List::new(Global);
        items.push(Item { attrs: List::new(Global), vis: Vis::Inherited, kind }).ok().unwrap();
    }
    File { shebang: None, attrs: List::new(Global), items }
}

#[test]
fn a_tree_is_written_where_a_source_reads_to_it() {
    assert_eq!(unparse(&modules(2)).unwrap(), "mod a {\n    mod a {}\n}\n");
    let error = unparse(&modules(257)).unwrap_err();
    assert_eq!((error.cause(), error.line(), error.to_string().as_str()), (Cause::NotWritten, 0, "no source reads to the tree"));
}

/// A function whose body has so many levels.
#[cfg(feature = "std")]
fn deep(before: &str, core: &str, behind: &str, levels: usize) -> String {
    format!("fn f() {{{}{core}{}}}", before.repeat(levels), behind.repeat(levels))
}

#[test]
#[cfg(feature = "std")]
fn the_deepest_tree_is_written() {
    let text = unparse(&modules(256)).unwrap();
    assert_eq!(check(&text), Ok(true));
}

#[test]
#[cfg(feature = "std")]
fn the_deepest_sources_need_no_stack_of_the_caller() {
    let forms = [
        ("if a {", "", "}", 253),
        ("while a {", "", "}", 253),
        ("let a = b else {", "", "};", 253),
        ("match a { b => {", "", "}}", 126),
        ("|a|", "b", "", 127),
        ("|a| {", "b", "}", 127),
        ("a(", "b", ")", 253),
        ("A { a: ", "b", "}", 253),
        ("-(", "a", ")", 126),
    ];
    let small = std::thread::Builder::new().stack_size(64 * 1024).spawn(move || {
        for (before, core, behind, levels) in forms {
            let text = format(&deep(before, core, behind, levels)).unwrap();
            assert_eq!(check(&text), Ok(true));
            for levels in [257, 20_000] {
                assert_eq!(format(&deep(before, core, behind, levels)).unwrap_err().cause(), Cause::NoItem);
            }
        }
    });
    small.unwrap().join().unwrap();
}
