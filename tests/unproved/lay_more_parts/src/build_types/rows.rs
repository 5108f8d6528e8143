//! What calls make, printed, and why they refuse.

use crate::build_types::parts::{is_printed, made, named, only, type_of, with};
use lay_build_types::{BuildError, name, path, string_literal, type_path, type_ref, type_tuple};
use lay_node::{Args, Ty};
use lay_test_rows::{BETWEEN, parts};
use lay_text::{List, NoMemory};
use std::alloc::Global;
use std::test::Fail;

/// The name that a text is, or why it is none.
fn told(alloc: Global, text: &str) -> Result<&'static str, NoMemory> {
    match name(alloc, text.as_bytes()) {
        Ok(name) if name.node().text.as_bytes() != text.as_bytes() => Ok("another text"),
        Ok(name) if name.node().raw => Ok("raw"),
        Ok(_) => Ok("plain"),
        Err(BuildError::BadName) => Ok("bad"),
        Err(BuildError::NoMemory) => Err(NoMemory),
        Err(_) => Ok("another reason"),
    }
}

#[test]
fn texts_that_are_names(rt: HostRuntime) -> Result<(), Fail> {
    let alloc = rt.alloc();
    let rows =
        "a→plain§A1→plain§é→plain§__→plain§union→plain§raw→plain§type→raw§fn→raw§true→raw§yield→raw§await→raw\
        §self→bad§Self→bad§super→bad§crate→bad§_→bad§→bad§a b→bad§ a→bad§a →bad§1→bad§r#a→bad§r#type→bad§a'→bad§'a→bad§a-b→bad";
    for row in rows.split(BETWEEN) {
        let (text, wanted) = parts(row);
        assert_eq!(rt; told(alloc, text)?, wanted, "{row}");
    }
    assert!(rt; matches!(name(alloc, b"a\xff"), Err(BuildError::BadName)));
    Ok(())
}

#[test]
fn types(rt: HostRuntime) -> Result<(), Fail> {
    let alloc = rt.alloc();
    let pair = with(
        &rt,
        only(&rt, alloc, type_of(&rt, alloc, "A")),
        type_of(&rt, alloc, "B"),
    );
    let pair = made(&rt, type_tuple(alloc, pair));
    assert!(rt; is_printed(alloc, pair.node(), "(A, B)"));
    let alone = made(
        &rt,
        type_tuple(alloc, only(&rt, alloc, type_of(&rt, alloc, "fn"))),
    );
    assert!(rt; is_printed(alloc, alone.node(), "(r#fn,)"));
    let nothing = made(&rt, type_tuple(alloc, List::new(alloc)));
    assert!(rt; is_printed(alloc, nothing.node(), "()"));
    let shared = made(&rt, type_ref(alloc, false, pair));
    assert!(rt; is_printed(alloc, shared.node(), "&(A, B)"));
    let rest = with(
        &rt,
        only(&rt, alloc, named(&rt, alloc, "type")),
        named(&rt, alloc, "C"),
    );
    let args = with(&rt, only(&rt, alloc, shared), alone);
    let whole = made(&rt, type_path(alloc, named(&rt, alloc, "a"), rest, args));
    let writable = made(&rt, type_ref(alloc, true, whole));
    assert!(rt;
        is_printed(
            alloc,
            writable.node(),
            "&mut a::r#type::C<&(A, B), (r#fn,)>"
        )
    );
    Ok(())
}

// A name needs 1, and each reference one more.
#[test]
fn types_within_types(rt: HostRuntime) {
    let alloc = rt.alloc();
    let mut reference = type_of(&rt, alloc, "A");
    for _ in 0..255u64 {
        reference = made(&rt, type_ref(alloc, true, reference));
    }
    assert!(&rt; matches!(type_ref(alloc, true, reference), Err(BuildError::TooDeep)));
}

#[test]
fn paths(rt: HostRuntime) {
    let alloc = rt.alloc();
    let (first, _) = named(&rt, alloc, "a").into_parts();
    let (second, _) = named(&rt, alloc, "in").into_parts();
    let (third, _) = named(&rt, alloc, "b").into_parts();
    let rest = with(&rt, only(&rt, alloc, second), third);
    let path = made(&rt, path(alloc, first, rest, Args::None));
    assert!(&rt; is_printed(alloc, &Ty::Path { path }, "a::r#in::b"));
}

#[test]
fn strings(rt: HostRuntime) {
    let alloc = rt.alloc();
    let rows =
        "→\"\"§a→\"a\"§é'→\"é'\"§\"→\"\\\"\"§\\→\"\\\\\"§\\n→\"\\\\n\"§a\nb\r\tc→\"a\\nb\\r\tc\"";
    for row in rows.split(BETWEEN) {
        let (text, wanted) = parts(row);
        let literal = made(&rt, string_literal(alloc, text.as_bytes()));
        assert!(&rt; literal.as_bytes() == wanted.as_bytes(), "{row}");
    }
}
