//! Files that are edited item by item, beside the text of the whole source.
mod draws;

use draws::Draw;
use froesaffron::{format, read, unparse, Cause, EditError, Items};

const HEAD: &str = "#!/bin/sh\n//! A file.\n#![a]\n";
const ITEMS: [&str; 6] = [
    "fn f(){g(a,b)}",
    "/// A.\npub struct A{a:u8,b:Vec<u8>}",
    "mod m{use a::*;use b::{c,d};}",
    "impl A{const B:u8=1;}",
    "macro_rules!m{()=>{}}",
    "const LONG:[u64;9]=[1000000000,2000000000,3000000000,4000000000,5000000000,6000000000,7000000000,8000000000,9000000000];",
];

fn source_of(items: &[&str]) -> String {
    format!("{HEAD}{}", items.join("\n"))
}

#[test]
fn edits_give_the_text_of_the_edited_source() {
    let mut draw = Draw(1);
    let mut model = vec![ITEMS[0], ITEMS[1]];
    let mut items = Items::new(&source_of(&model)).unwrap();
    for _ in 0..200 {
        let item = ITEMS[draw.below(6) as usize];
        let index = draw.below(model.len() as u64 + 1) as usize;
        match draw.below(3) {
            0 => {
                items.insert(index, item).unwrap();
                model.insert(index, item);
            }
            1 if index < model.len() => {
                items.replace(index, item).unwrap();
                model[index] = item;
            }
            2 if index < model.len() => {
                items.remove(index).unwrap();
                model.remove(index);
            }
            _ => {
                assert_eq!(items.output(model.len()), None);
                assert_eq!(items.remove(model.len()), Err(EditError::NoIndex));
                assert_eq!(items.insert(model.len() + 1, item), Err(EditError::NoIndex));
                assert_eq!(items.replace(model.len(), item), Err(EditError::NoIndex));
            }
        }
        let text = format(&source_of(&model)).unwrap();
        assert_eq!(
            (items.len(), items.is_empty(), items.whole()),
            (model.len(), model.is_empty(), Ok(text.clone()))
        );
        assert_eq!(unparse(items.file()), Ok(text));
        for (index, item) in model.iter().enumerate() {
            assert_eq!(items.output(index), Some(format(item).unwrap().as_str()));
        }
    }
    assert_eq!(items.head(), format(HEAD).unwrap());
}

#[test]
fn an_edit_that_is_not_made_changes_nothing() {
    let mut items = Items::new("const A: u8 = 1;").unwrap();
    let not_one = |shebang, attrs, items| Err(EditError::NotOneItem { shebang, attrs, items });
    for (text, wanted, told) in [
        ("", not_one(false, 0, 0), "not one item: 0 items"),
        ("struct A; struct B;", not_one(false, 0, 2), "not one item: 2 items"),
        ("#![a] struct A;", not_one(false, 1, 1), "not one item: an inner attribute"),
        ("#!/bin/sh\nstruct A;", not_one(true, 0, 1), "not one item: a shebang line"),
        (
            "fn f() { a b }",
            Err(EditError::Refused(format("fn f() { a b }").unwrap_err())),
            "1:1: no item (read as far as 1:12)",
        ),
        (")", Err(EditError::Refused(format(")").unwrap_err())), "1:1: unbalanced delimiter"),
    ] {
        assert_eq!((items.insert(0, text), items.replace(0, text)), (wanted, wanted));
        assert_eq!(wanted.unwrap_err().to_string(), told);
        assert_eq!(items.whole().unwrap(), "const A: u8 = 1;\n");
    }
    assert_eq!(items.remove(1).unwrap_err().to_string(), "no item has this index");
    assert_eq!(format!("{items:?}"), r#"["", "const A: u8 = 1;\n"]"#);
}

#[test]
fn a_source_that_is_refused_has_no_items() {
    for source in ["struct", "fn f() { a b }", "}", "\\"] {
        assert_eq!(Items::new(source).unwrap_err(), read(source).err().unwrap());
    }
    assert_eq!(Items::new("a").unwrap_err().cause(), Cause::NoItem);
}
