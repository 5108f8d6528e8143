//! Rows of calls, and what they answer.

use lay_files::text_of;
use lay_items::{EditError, Items, refused_at};
use lay_test_rows::{BETWEEN, parts};
use lay_text::{FormatError, NoMemory, Refusal};
use std::alloc::Global;
use std::process::Abort;
use std::str;
use std::test::Fail;

/// What stands before a sign and behind it: nothing where there is none.
fn cut(text: &str, sign: char) -> (&str, &str) {
    match text.split_once(sign) {
        Some(both) => both,
        None => (text, ""),
    }
}

/// A text of these bytes.
fn string(alloc: Global, bytes: &[u8]) -> Result<String, NoMemory> {
    match str::from_utf8(bytes) {
        Ok(text) => Ok(String::from_str(alloc, text)?),
        Err(_) => Ok(String::from_str(alloc, "no UTF-8")?),
    }
}

/// A refusal of a text, and its place.
fn refused(alloc: Global, text: &str, refusal: Refusal) -> Result<String, NoMemory> {
    let place = refused_at(alloc, text.as_bytes(), refusal)?;
    Ok(format!(in alloc; "{refusal:?} in {}:{}", place.line, place.column)?)
}

/// The answer of an edit by a text.
fn edited(alloc: Global, text: &str, answer: Result<(), EditError>) -> Result<String, NoMemory> {
    match answer {
        Ok(()) => string(alloc, b"done"),
        Err(EditError::Refused(refusal)) => refused(alloc, text, refusal),
        Err(error) => Ok(format!(in alloc; "{error:?}")?),
    }
}

/// What a call answers: a word, and where it takes them, an index and a text behind it.
fn called(alloc: Global, items: &mut Items, call: &str) -> Result<String, NoMemory> {
    let (word, rest) = cut(call, ' ');
    let (number, text) = cut(rest, ' ');
    let index = match number.parse::<usize>() {
        Ok(index) => index,
        Err(_) => 0,
    };
    let count = items.len();
    if word == "len" {
        return Ok(format!(in alloc; "{count}")?);
    }
    if word == "head" {
        return string(alloc, items.head());
    }
    if word == "tree" {
        let text = text_of(alloc, items.file())?;
        return string(alloc, text.as_bytes());
    }
    if word == "output" && index < count {
        return string(alloc, items.output(index));
    }
    if word == "insert" && index <= count {
        let answer = items.insert(index, text.as_bytes());
        return edited(alloc, text, answer);
    }
    if word == "replace" && index < count {
        let answer = items.replace(index, text.as_bytes());
        return edited(alloc, text, answer);
    }
    if word == "remove" && index < count {
        items.remove(index);
        return string(alloc, b"done");
    }
    let text = items.whole()?;
    string(alloc, text.as_bytes())
}

/// What the calls of a row answer, one after another, on the items of the text that the row begins with.
fn told(alloc: Global, row: &str) -> Result<String, NoMemory> {
    let (text, calls) = cut(row, '·');
    let mut items = match Items::from_bytes(alloc, text.as_bytes()) {
        Ok(items) => items,
        Err(FormatError::Refused(refusal)) => return refused(alloc, text, refusal),
        Err(FormatError::NoMemory) => return Err(NoMemory),
    };
    let mut all = String::new(alloc);
    for call in calls.split('·') {
        let answer = called(alloc, &mut items, call)?;
        all.push_str(answer.as_str())?;
        all.push_str("·")?;
    }
    Ok(all)
}

/// Each row is told what stands behind its `→`.
fn each_is_told(rt: &impl Abort, alloc: Global, rows: &str) -> Result<(), NoMemory> {
    for row in rows.split(BETWEEN) {
        let (asked, wanted) = parts(row);
        assert_eq!(rt; told(alloc, asked)?.as_str(), wanted, "{row}");
    }
    Ok(())
}

#[test]
fn what_is_kept(rt: HostRuntime) -> Result<(), Fail> {
    let rows = "·len·head·whole·tree→0····\
        §struct A;struct B;·len·head·output 0·output 1·whole·tree→2··struct A;\n·struct B;\n·struct A;\nstruct B;\n·struct A;\nstruct B;\n·\
        §#!/bin/x\n#![a]//!b\nuse a::{b,c,};·len·head·output 0·whole→1·#!/bin/x\n#![a]\n//!b\n·use a::{b, c};\n·#!/bin/x\n#![a]\n//!b\nuse a::{b, c};\n·\
        §#!/bin/x\n·len·head·whole→0·#!/bin/x\n·#!/bin/x\n·\
        §mod a{fn f(){}}///b\n#[c]struct D;·len·output 0·output 1→2·mod a {\n    fn f() {}\n}\n·///b\n#[c]\nstruct D;\n·";
    each_is_told(&rt, rt.alloc(), rows)?;
    Ok(())
}

#[test]
fn items_that_are_put_in_and_taken_out(rt: HostRuntime) -> Result<(), Fail> {
    let rows =
        "struct A;struct B;·replace 1 use a::{b,c,};·whole·remove 0·whole→done·struct A;\nuse a::{b, c};\n·done·use a::{b, c};\n·\
        §struct A;struct B;·insert 0 const C:D=1;·output 0·output 1·whole→done·const C: D = 1;\n·struct A;\n·const C: D = 1;\nstruct A;\nstruct B;\n·\
        §struct A;struct B;·insert 1 fn f(){}·len·whole·tree→done·3·struct A;\nfn f() {}\nstruct B;\n·struct A;\nfn f() {}\nstruct B;\n·\
        §struct A;struct B;·insert 2 /*c*/a!{}/*c*/·output 2·whole→done·a! {}\n·struct A;\nstruct B;\na! {}\n·\
        §#![a]·insert 0 struct B;·insert 1 struct C;·remove 0·remove 0·len·head·whole·tree→done·done·done·done·0·#![a]\n·#![a]\n·#![a]\n·\
        §#!/bin/x\nstruct A;·replace 0 //!b\nstruct B;·replace 0 ///b\r\nstruct B;·whole·tree→NotOneItem(Shape { shebang: false, attrs: 1, items: 1 })·done·#!/bin/x\n///b\nstruct B;\n·#!/bin/x\n///b\nstruct B;\n·";
    each_is_told(&rt, rt.alloc(), rows)?;
    Ok(())
}

// Behind each edit that isn't made all is as it was.
#[test]
fn edits_that_are_not_made(rt: HostRuntime) -> Result<(), Fail> {
    let rows =
        "struct A;struct B;·insert 0 struct C;struct D;·whole·tree→NotOneItem(Shape { shebang: false, attrs: 0, items: 2 })·struct A;\nstruct B;\n·struct A;\nstruct B;\n·\
        §struct A;struct B;·insert 0 fn·whole·tree→NoItem { at: 0 } in 1:1·struct A;\nstruct B;\n·struct A;\nstruct B;\n·\
        §struct A;struct B;·insert 2 ·whole·tree→NotOneItem(Shape { shebang: false, attrs: 0, items: 0 })·struct A;\nstruct B;\n·struct A;\nstruct B;\n·\
        §struct A;struct B;·replace 1 struct C;struct D;·output 1·whole·tree→NotOneItem(Shape { shebang: false, attrs: 0, items: 2 })·struct B;\n·struct A;\nstruct B;\n·struct A;\nstruct B;\n·\
        §struct A;·replace 0 #!/bin/x\n#![a]#![b]struct C;·insert 1 #!/bin/x\nstruct C;·whole→NotOneItem(Shape { shebang: true, attrs: 2, items: 1 })·NotOneItem(Shape { shebang: true, attrs: 0, items: 1 })·struct A;\n·\
        §struct A;·replace 0 struct\r\n B;\r\n  }·insert 1 ((·insert 0 struct B;\"·insert 0 struct B;\n  fn·whole·tree→Unbalanced { at: 13 } in 3:3·Unbalanced { at: 1 } in 1:2·NoToken { at: 9 } in 1:10·NoItem { at: 12 } in 2:3·struct A;\n·struct A;\n·\
        §struct A;\n  fn·whole→NoItem { at: 12 } in 2:3§}·whole→Unbalanced { at: 0 } in 1:1";
    each_is_told(&rt, rt.alloc(), rows)?;
    Ok(())
}

#[test]
fn bytes_that_are_no_text(rt: HostRuntime) -> Result<(), Fail> {
    let alloc = rt.alloc();
    let bytes = b"struct A;\n \xff";
    let refusal = Refusal::NotUtf8 { at: 11 };
    match Items::from_bytes(alloc, bytes) {
        Err(error) => assert!(rt; error == FormatError::Refused(refusal)),
        Ok(_) => assert!(rt; false),
    }
    let place = refused_at(alloc, bytes, refusal)?;
    assert!(rt; place.line == 2 && place.column == 2);
    Ok(())
}
