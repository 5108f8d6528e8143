//! Strings and their values, worked out by hand from the Rust Reference's rules.
use crate::read::each::each_holds;
use lay_cook::{Cooked, cook};
use lay_test_rows::{BETWEEN, parts};
use lay_token::{NoMemory, Text, Token, piece_at};
use std::alloc::Global;

/// What the first piece of a text says as a string.
fn cooked(alloc: Global, text: &str) -> Result<Cooked, NoMemory> {
    match piece_at(text, false) {
        None => Ok(Cooked::NotText),
        Some(piece) => {
            let token = Token {
                kind: piece.kind,
                joint: false,
                text: Text::from_bytes(alloc, &text.as_bytes()[..piece.len])?,
                at: 0,
                len: piece.len,
            };
            cook(alloc, &token)
        }
    }
}

/// The first piece of a text says this as a string.
fn says(alloc: Global, row: &str) -> bool {
    let (text, wanted) = parts(row);
    match cooked(alloc, text) {
        Ok(Cooked::Str(value)) => value.as_bytes() == wanted.as_bytes(),
        _ => false,
    }
}

/// It is no text.
fn is_no_text(alloc: Global, text: &str) -> bool {
    matches!(cooked(alloc, text), Ok(Cooked::NotText))
}

#[test]
fn values(rt: HostRuntime) {
    let rows = "\"\"→§\
        \"a\" b→a§\
        \"\u{e9}\u{4e2d}\u{1f600}\"→\u{e9}\u{4e2d}\u{1f600}§\
        \"\\n\\r\\t\\\\\\0\\'\\\"\"→\n\r\t\\\0'\"§\
        \"a\\nb\\\\n'c\"→a\nb\\n'c§\
        \"\\x41\\x7F\\x7e\\x00\"→A\x7f~\0§\
        \"\\u{e9}\\u{41}\\u{0}\"→\u{e9}A\0§\
        \"\\u{1_F6_00}\\u{10FFFF}\\u{00004_1_}\"→\u{1f600}\u{10ffff}A§\
        \"a\\\n \t\n  b c\"→ab c§\
        \"a\\\n\"→a§\
        \"\\\n  \\\n  \\n  \\\\\\\n\\x41\"→\n  \\A§\
        \"a\n b\"→a\n b§\
        \"more than twenty-two bytes\\n\"→more than twenty-two bytes\n§\
        r\"\"→§\
        r\"a\\n\\\" b→a\\n\\§\
        r#\"a\"b\\n\"# →a\"b\\n§\
        r##\"x\"#\"##→x\"#§\
        r\"\u{e9}\\\n  \"→\u{e9}\\\n  §\
        r##\"#\"##→#§\
        r#\"more than twenty-two bytes\"#→more than twenty-two bytes";
    each_holds(&rt, rt.alloc(), rows, BETWEEN, says);
}

// Strings with a suffix, and what is no string.
#[test]
fn no_values(rt: HostRuntime) {
    let rows =
        r##""a"x§"\n"_x§""é§r"a"x§r#"a"#x1§b"a"§br"a"§c"a"§cr"a"§'a'§b'a'§1§1.5§name§r#name§'name§_§+§(§)§/// a"##;
    each_holds(&rt, rt.alloc(), rows, BETWEEN, is_no_text);
}
