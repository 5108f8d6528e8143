//! Reading by itself, and how far it comes in what is refused.
mod draws;
mod sources;

use draws::Draw;
use froesaffron::{check, format, read, unparse, Cause, Error};
use sources::{modules, sources};

/// Sources that rustc 1.95 refuses, each with the place of its first error.
const REFUSED: [(&str, usize, usize); 12] = [
    ("struct A;\nfn f() {\n    g(\n        a,\n        b c,\n    );\n}\n", 5, 11),
    ("struct A {\n    a u8,\n    b: u8,\n}\n", 2, 7),
    ("enum A {\n    B(u8),\n    C = ,\n}\n", 3, 9),
    ("fn f() {\n    let a = 1;\n    let b == 2;\n}\n", 3, 11),
    ("fn f() {\n    match a {\n        b = c,\n    }\n}\n", 3, 11),
    ("fn f() {\n    if a {\n    } else b;\n}\n", 3, 12),
    ("impl A {\n    fn f(&self) -> {\n    }\n}\n", 2, 20),
    ("mod a {\n    mod b {\n        const C u8 = 1;\n    }\n}\n", 3, 17),
    ("use a::{b, c d};\n", 1, 14),
    ("fn f() {\n    a.(b)\n}\n", 2, 7),
    ("trait A {\n    type B = ;\n}\n", 2, 14),
    ("static A: [u8; 2] = [1 2];\n", 1, 24),
];

fn furthest(source: &str) -> Option<(usize, usize)> {
    format(source).unwrap_err().furthest().map(|place| (place.line, place.column))
}

#[test]
fn reading_comes_as_far_as_the_fault() {
    for (source, line, column) in REFUSED {
        assert_eq!(furthest(source), Some((line, column)), "{source}");
        assert_eq!(read(source).err(), format(source).err());
    }
}

#[test]
fn the_furthest_place_is_told_of_items_alone() {
    assert_eq!(furthest("fn f() {} }"), None);
    assert_eq!(furthest("fn f() { \\ }"), None);
    assert_eq!(froesaffron::format_bytes(b"struct \xff").unwrap_err().furthest(), None);
    let error = format("struct A;\nfn f() {\n    a b\n}\n").unwrap_err();
    assert_eq!(error.to_string(), "2:1: no item (read as far as 3:7)");
    assert_eq!(format("struct").unwrap_err().to_string(), "1:1: no item (read as far as 1:7)");
    assert_eq!(
        format("\u{feff}\r\n#![a] b").unwrap_err().to_string(),
        "2:7: no item (read as far as 2:8)"
    );
    assert_eq!(
        format("#![a =] struct A;").unwrap_err().to_string(),
        "1:1: no item (read as far as 1:7)"
    );
}

#[test]
fn the_furthest_place_counts_as_the_offset_of_an_error_does() {
    for (source, _, _) in REFUSED {
        let error = format(&format!("\u{feff}{}", source.replace('\n', "\r\n"))).unwrap_err();
        assert_eq!(error, format(source).unwrap_err());
        let place = error.furthest().unwrap();
        let before = &source[..place.offset];
        assert_eq!(
            (place.line, place.column),
            (
                before.matches('\n').count() + 1,
                before.len() - before.rfind('\n').map_or(0, |at| at + 1) + 1
            )
        );
    }
}

/// What comes of a source through its tree.
fn by_tree(source: &str) -> Result<String, Error> {
    unparse(&read(source)?)
}

#[test]
fn a_source_has_the_text_of_its_tree() {
    for source in sources() {
        assert_eq!(by_tree(&source), format(&source));
    }
}

#[test]
fn so_has_one_of_many_windows() {
    let source = modules();
    let text = format(&source).unwrap();
    assert_eq!(by_tree(&source), Ok(text.clone()));
    assert_eq!(check(text), Ok(true));
}

#[test]
fn what_is_refused_behind_many_windows_has_no_text() {
    let source = modules();
    for (more, cause) in
        [("fn f(a) {}", Cause::NoItem), ("}", Cause::Unbalanced), ("\\", Cause::NoToken)]
    {
        let error = format(&format!("{source}{more}")).unwrap_err();
        assert_eq!((error.cause(), error.offset()), (cause, source.len()));
    }
    // A fault within a module is told at the module, and its place with how far reading came.
    let error = format(&format!("mod all {{\n{source}fn f(a) {{}}\n}}\n")).unwrap_err();
    let line = source.lines().count() + 2;
    assert_eq!(
        (error.line(), error.furthest().map(|place| (place.line, place.column))),
        (1, Some((line, 7)))
    );
}

#[test]
fn a_source_without_a_line_is_refused_by_both_or_by_none() {
    let mut draw = Draw(1);
    for source in sources() {
        let lines: Vec<&str> = source.lines().collect();
        let gone = draw.below(lines.len() as u64) as usize;
        let rest = [&lines[..gone], &lines[gone + 1..]].concat().join("\n");
        assert_eq!(by_tree(&rest), format(&rest));
    }
}
