//! Tokens, words and documentation, worked out by hand from the Rust Reference's rules and this format's; texts and
//! lists with ample memory; and the messages of refusals.
use crate::read::each::each_holds;
use lay_test_rows::{BETWEEN, parts};
use lay_token::word::word_class;
use lay_token::{FormatError, List, NoMemory, Refusal, Text, doc_form, piece_at};
use std::alloc::{AllocError, Global};
use std::fmt::Debug;

/// Stands between the rows of a literal whose rows hold several texts each. It begins no token.
const ROW: char = '¶';

/// Whether a value is shown so.
fn is_shown(alloc: Global, value: &impl Debug, wanted: &str) -> bool {
    match format!(in alloc; "{value:?}") {
        Ok(shown) => shown.as_str() == wanted,
        Err(_) => false,
    }
}

/// Whether a text begins with a piece of the kind with this name, of so many bytes; `index` says that it stands behind
/// the `.` of a field.
fn begins(alloc: Global, text: &str, index: bool, kind: &str, len: usize) -> bool {
    match piece_at(text, index) {
        Some(piece) => piece.len == len && is_shown(alloc, &piece.kind, kind),
        None => false,
    }
}

/// Each of the texts of a row is one piece, of the kind that stands before them.
fn whole(alloc: Global, row: &str) -> bool {
    let (kind, texts) = parts(row);
    for text in texts.split(BETWEEN) {
        if !begins(alloc, text, false, kind, text.len()) {
            return false;
        }
    }
    true
}

/// Each of the texts of a row begins with a piece, of the length and the kind that stand before them.
fn all_begin(alloc: Global, row: &str, index: bool) -> bool {
    let (piece, texts) = parts(row);
    let (len, kind) = match piece.split_once(' ') {
        Some(both) => both,
        None => ("no length", piece),
    };
    let len = len.parse::<usize>().unwrap_or(usize::MAX);
    for text in texts.split(BETWEEN) {
        if !begins(alloc, text, index, kind, len) {
            return false;
        }
    }
    true
}

fn front(alloc: Global, row: &str) -> bool {
    all_begin(alloc, row, false)
}

/// The same behind the point of a field.
fn front_behind_point(alloc: Global, row: &str) -> bool {
    all_begin(alloc, row, true)
}

/// A text begins with no piece.
fn no_piece(_: Global, text: &str) -> bool {
    piece_at(text, false).is_none()
}

/// The same behind the point of a field.
fn no_piece_behind_point(_: Global, text: &str) -> bool {
    piece_at(text, true).is_none()
}

#[test]
fn whole_pieces(rt: HostRuntime) {
    let rows = "Ident→x§type§r§b§c§br§cr§_a§__§a1§\u{e9}\u{4e2d}¶\
        RawIdent→r#type§r#a§r#__§r#selfish§r#\u{e9}¶\
        Underscore→_¶\
        Lifetime→'a§'_§'_a§'static§'\u{e9}¶\
        Char→'a'§'\"'§'1'§' '§'\u{1f600}'§'\\''§'\\\"'§'\\\\'§'\\n'§'\\0'¶\
        Char→'\\x7f'§'\\u{0}'§'\\u{10ffff}'§'\\u{1_}'§'\\u{1_F6__00}'§'a'u8§'a'__¶\
        Str→\"\"§\"a'b\"§\"a\\\"b\"§\"a\nb\"§\"\\x7f\\0\"§\"a\\\n \t\n b\"§\"\\u{0}\"¶\
        Str→\"a\"u§\"a\"__§\"a\"\u{e9}§\"//\"§\"\u{1f600}\\\\\"¶\
        RawStr→r\"\"§r\"\\\"§r#\"a\"b\"#§r##\"x\"#\"##§r#\"\"\"#§r\"a\"u§r#\"a\"#_u¶\
        Byte→b'a'§b'\\xff'§b'\\''§b'\\0'§b'\"'§b'a'u8¶\
        ByteStr→b\"\"§b\"\\xff\\0\"§b\"a\\\n\tb\"§b\"a\"u¶\
        RawByteStr→br\"\"§br#\"\\\"#§br##\"\"#\"##u¶\
        CStr→c\"\"§c\"\u{e9}\\xff\"§c\"\\u{10ffff}\\x01\"§c\"a\"u¶\
        RawCStr→cr\"\"§cr#\"\u{e9}\"#§cr\"a\"u¶\
        Int→0§1_§1_000§12u8§1f32§0_x1§0xFe§0x_1§0x1e5§0xFFu8§0x1_u§0x0_g¶\
        Int→0o7§0o77u8§0b1§0b_1_0_§0b0f32§0b1u8¶\
        Float→1.§1.5§1.5e3§1e5§1E-5§1e+5§1e_5§1_e5§1e5f§1e5e3§0e0§1_.¶\
        Float→1.5f64§1.5_f§1.5_§1e5_§1.5e_3§1.5e+3_u8§1.0E5E§0.1¶\
        Punct→=§<§>§!§~§+§-§*§/§%§^§&§@§.§,§;§:§#§$§?§|¶\
        Opener(Paren)→(¶\
        Closer(Brace)→}¶\
        Doc { inner: false, block: false }→///§/// a§///\u{e9} //§///!¶\
        Doc { inner: true, block: false }→//!§//! a§//!!§//!/¶\
        Doc { inner: false, block: true }→/** a */§/** /* */ */§/** **/§/**\n*/§/**a/ /*/**/*/*/¶\
        Doc { inner: true, block: true }→/*!*/§/*! a */§/*!!*/§/*!*/§/*!/*/**/*/*/§/*!**/";
    each_holds(&rt, rt.alloc(), rows, ROW, whole);
}

#[test]
fn pieces_before_a_rest(rt: HostRuntime) {
    let rows = "1 Ident→x.0.1§b \"s\"§r #§c\n'§b/**/'a'¶\
        6 RawIdent→r#type\"x\"§r#type'a§r#type#¶\
        1 Underscore→_ \"s\"§_,¶\
        2 Lifetime→'a b§'a,'b§'a\"x\"§'a.'b'¶\
        3 Char→'a'_§'a'1§'a'\u{301}§'a''b'§'a'_ ¶\
        3 Str→\"a\"_§\"a\"1§\"a\"\"b\"§\"a\"#¶\
        4 Str→\"a\"r#b§\"a\"b'c'¶\
        6 RawStr→r#\"a\"##§r#\"a\"#_¶\
        1 Int→0..1§1..§1.a§1._§1.\u{e9}§1.e5§1._5§1;§1\"a\"§1.r#a¶\
        3 Int→0x1..§0x1.a§0b1.a§0o1._¶\
        2 Float→1.;§1.+§1.\u{301}§1.)§1.'a'§1. .§1.\u{663}¶\
        3 Float→1.5.a§1.5..§1e5.a§1.5.5§1e5.§1.5+¶\
        1 Punct→..§&&,§/ /§/=§#!§+1¶\
        1 Opener(Brace)→{}§{{¶\
        5 Doc { inner: false, block: false }→/// a\nb§/// a\n\r§///a \n¶\
        8 Doc { inner: false, block: true }→/** a */ b§/** a */*/§/** a */u";
    // Behind the point of a field.
    let indices = "1 Int→0.1§0§1.§1..2¶\
        2 Int→00.a§0a¶\
        3 Int→0u8§0x1§1_0§1_0.a¶\
        3 Float→1e5¶\
        5 Float→1_0.5¶\
        1 Ident→x.0¶\
        1 Punct→.0";
    each_holds(&rt, rt.alloc(), rows, ROW, front);
    each_holds(&rt, rt.alloc(), indices, ROW, front_behind_point);
}

#[test]
fn no_pieces(rt: HostRuntime) {
    // White space, and what begins no token; then plain comments, and comments that end too late or hold a CR; words
    // before a quote or a `#`; quotes; and numbers.
    let rows = "§ §\t§\n§\r§\u{85}§\u{200e}§\u{2029}§\\§`§\0§\u{20ac}§\u{301}§\u{feff}§\
        //§// a§////§//// a§/**/§/***/§/*** a */§/* a */§/*§/*/§/*/**/§/** /* */§/**§/*!§\
        /*!/**/§/** a*§/**a//*/**/*/§/**a\r*/§/*!\r*/§///\r§/// a\r\n§//!\r§\
        k\"s\"§k's§k's'§k#§_\"x\"§_'a§_#§a\"§\u{e9}\"x\"§rb\"a\"§cb\"a\"§bc\"a\"§rr\"a\"§brr\"a\"§\
        r#§r#1§r#\"a§r# x§r##x§r#self§r#crate§r#super§r#Self§r#_§r#_ §r'a'§b#§b#a§b##\"x\"#§\
        br#a§br'a'§br#§c'a'§c#§c#\"a\"#§cr#a§cr'a'§b'§b'a§b'ab'§b''§b'''§\
        '§''§'''§'\n'§'\t'§'\r'§'ab'§'a#§'ab#§'1§'1a'§'(a'§'r#a§'\\§'\\'§'\\a'§'\\n§'\\na'§\
        '\\x80'§'\\x7'§'\\x7g'§'\\u'§'\\u1'§'\\u{}'§'\\u{_1}'§'\\u{d800}'§'\\u{dfff}'§'\\u{110000}'§\
        '\\u{1234567}'§'\\u{0000041}'§b'\u{e9}'§b\"\u{e9}\"§b'\\u{1}'§b\"\\u{1}\"§b'\\x0'§b\"\r\"§br\"\u{e9}\"§\
        \"§\"a§\"\\§\"\\\"§\"\\q\"§\"\\x80\"§\"a\rb\"§\"\\\r\n\"§\"\\u{d800}\"§r\"§r\"a\rb\"§r#\"a\"§r##\"a\"#§\
        c\"\\0\"§c\"\\x00\"§c\"\\u{0}\"§c\"\\u{000}\"§c\"\0\"§c\"a\\§c\"\r\"§cr\"\0\"§b'\r'§br\"\r\"§cr\"\r\"§\
        1e§1e+§1e_§1e+_§1E-§1ex§1.5e§1.5ex§1.0e+§0b12§0b1_2§0o8§0o18§0b§0b_§0o§0x§0x_§0xg§\
        0b1e1§0o1E§0x1.0§0x1.§0b1.§0o1.+§1\u{301}§1\u{663}";
    each_holds(&rt, rt.alloc(), rows, BETWEEN, no_piece);
    // Behind the point of a field.
    let indices = "0b2§1\u{301}§1e§1\u{663}§1_e";
    each_holds(&rt, rt.alloc(), indices, BETWEEN, no_piece_behind_point);
}

/// A raw string between so many hashes.
fn hashed(alloc: Global, count: usize) -> Result<String, AllocError> {
    let mut text = String::new(alloc);
    text.push('r')?;
    for _ in 0..count {
        text.push('#')?;
    }
    text.push_str("\"a\"")?;
    for _ in 0..count {
        text.push('#')?;
    }
    Ok(text)
}

// Up to 255 hashes open a raw string.
#[test]
fn many_hashes(rt: HostRuntime) -> Result<(), AllocError> {
    for count in [254usize, 255] {
        let text = hashed(rt.alloc(), count)?;
        assert!(rt; begins(rt.alloc(), text.as_str(), false, "RawStr", text.len()));
    }
    let text = hashed(rt.alloc(), 256)?;
    assert!(rt; no_piece(rt.alloc(), text.as_str()));
    Ok(())
}

/// Each of the texts of a row has the first form before them as documentation of what follows it, and the second one as
/// documentation of what it stands in.
fn forms(alloc: Global, row: &str) -> bool {
    let (names, texts) = parts(row);
    let (outer, inner) = match names.split_once(' ') {
        Some(both) => both,
        None => (names, "no form"),
    };
    for text in texts.split(BETWEEN) {
        if !is_shown(alloc, &doc_form(text.as_bytes(), false), outer) {
            return false;
        }
        if !is_shown(alloc, &doc_form(text.as_bytes(), true), inner) {
            return false;
        }
    }
    true
}

#[test]
fn documentation(rt: HostRuntime) {
    let rows = "Line Line→§ one§*/§*§!§a\t¶\
        Neither Line→/* */ * //§/¶\
        Neither Neither→a § §a\rb§a\n\rb¶\
        Block Block→a\n§\n § a\nb §!\n§\n/* a */§\n/* /* */ */ *§\n/*/ */¶\
        Neither Block→*\n§/\n¶\
        Neither Neither→\n/* a§\n*/§\n*/ /*§\n/§\n**/ a /*";
    each_holds(&rt, rt.alloc(), rows, ROW, forms);
}

/// Each of the words of a row, one blank between two of them, is of the class that stands before them.
fn class(alloc: Global, row: &str) -> bool {
    let (class, words) = parts(row);
    for word in words.split(' ') {
        if !is_shown(alloc, &word_class(word.as_bytes()), class) {
            return false;
        }
    }
    true
}

#[test]
fn words(rt: HostRuntime) {
    let rows = "PathWord→crate self super Self¶\
        Strict→as async await break const continue dyn else enum extern false fn for if impl in let¶\
        Strict→loop match mod move mut pub ref return static struct trait true type unsafe use¶\
        Strict→where while¶\
        Reserved→abstract become box do final macro override priv try typeof unsized virtual yield¶\
        Plain→_ a union macro_rules raw safe auto default gen dyn_ fns Struct selfish sel SELF r ";
    each_holds(&rt, rt.alloc(), rows, ROW, class);
}

/// What an error says.
fn told(alloc: Global, error: FormatError, message: &str) -> Result<bool, AllocError> {
    Ok(error.to_string(alloc)?.as_str() == message)
}

#[test]
fn messages(rt: HostRuntime) {
    let rows = [
        (
            FormatError::Refused(Refusal::NotUtf8 { at: 1 }),
            "not UTF-8",
        ),
        (FormatError::Refused(Refusal::NoToken { at: 2 }), "no token"),
        (
            FormatError::Refused(Refusal::Unbalanced { at: 3 }),
            "unbalanced delimiter",
        ),
        (FormatError::Refused(Refusal::NoItem { at: 4 }), "no item"),
        (FormatError::NoMemory, "no memory"),
    ];
    for (error, message) in rows {
        assert!(rt;
            matches!(told(rt.alloc(), error, message), Ok(true)),
            "{message}"
        );
    }
}

const LONG: &[u8] = b"a text of more than twenty-two bytes";

/// A text that leaves the value where it first stays, byte by byte.
fn grown(alloc: Global, bytes: &[u8]) -> Result<Text, NoMemory> {
    let mut text = Text::new(alloc);
    for byte in bytes {
        text.push(*byte)?;
    }
    Ok(text)
}

/// A text with more behind it.
fn longer(alloc: Global, bytes: &[u8], more: &[u8]) -> Result<Text, NoMemory> {
    let mut text = Text::from_bytes(alloc, bytes)?;
    text.push_bytes(more)?;
    Ok(text)
}

fn is_text(text: Result<Text, NoMemory>, wanted: &[u8]) -> bool {
    match text {
        Ok(text) => text.as_bytes() == wanted,
        Err(NoMemory) => false,
    }
}

// Each call that may answer NoMemory, with ample memory: texts that stay in the value and that leave it.
#[test]
fn texts_and_lists(rt: HostRuntime) {
    let alloc = rt.alloc();
    assert!(rt; is_text(grown(alloc, LONG), LONG));
    assert!(rt;
        is_text(
            longer(alloc, LONG, b"?!"),
            b"a text of more than twenty-two bytes?!"
        )
    );
    let mut list = List::new(alloc);
    assert!(rt; matches!(list.push(3u8), Ok(())));
    assert_eq!(rt; list.as_slice(), [3].as_slice());
    for item in list.as_mut_slice() {
        *item = 7;
    }
    assert_eq!(rt; list.as_slice(), [7].as_slice());
}
