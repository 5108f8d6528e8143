//! Inputs and texts, worked out by hand from the Rust Reference's rules and this format's.
use crate::read::each::each_holds;
use lay_lex::{lex_window, normalise};
use lay_test_rows::{BETWEEN, parts, tokens};
use lay_token::{FormatError, Refusal, Text, Token};
use std::alloc::{AllocError, Global};
use std::str;

/// Whether a shebang line is this one.
fn is_line(line: &Option<Text>, wanted: Option<&str>) -> bool {
    match (line, wanted) {
        (Some(line), Some(wanted)) => line.as_bytes() == wanted.as_bytes(),
        (None, None) => true,
        _ => false,
    }
}

/// Whether this is lexed of an input: the shebang line, the text and the start.
fn is_source(alloc: Global, given: &str, shebang: Option<&str>, text: &str, start: usize) -> bool {
    match normalise(alloc, given.as_bytes()) {
        Ok(source) => {
            let same = source.text.as_slice() == text.as_bytes() && source.start == start;
            same && is_line(&source.shebang, shebang)
        }
        Err(_) => false,
    }
}

/// What is lexed of the input of a row: the text, the start, and the shebang line if there is one.
fn source(alloc: Global, row: &str) -> bool {
    let (given, rest) = parts(row);
    let (text, rest) = parts(rest);
    let (start, shebang) = match rest.split_once('→') {
        Some((start, line)) => (start, Some(line)),
        None => (rest, None),
    };
    let start = start.parse::<usize>().unwrap_or(usize::MAX);
    is_source(alloc, given, shebang, text, start)
}

/// A text is lexed as it is.
fn same_source(alloc: Global, text: &str) -> bool {
    is_source(alloc, text, None, text, 0)
}

#[test]
fn sources(rt: HostRuntime) {
    let same =
        "§struct A;\n§ \u{feff}§#![allow(x)]\nstruct A;§#! \t[x]\n§#!//x\n§#! /*x\n§#!§#!  \n[x]§\n#!/bin/x\n§ #!/bin/x\n";
    each_holds(&rt, rt.alloc(), same, BETWEEN, same_source);
    let rows = "\u{feff}struct A;→struct A;→0§\
        \u{feff}\u{feff}→\u{feff}→0§\
        a\r\nb\r\n\r\n→a\nb\n\n→0§\
        \"a\r\nb\"→\"a\nb\"→0§\
        a\rb\r\r\nc\r→a\rb\r\nc\r→0§\
        \u{e9}\r\n\u{1f600}→\u{e9}\n\u{1f600}→0§\
        #!\r\n/bin/x→#!\n/bin/x→0§\
        #!/bin/x→#!/bin/x→8→#!/bin/x§\
        #!/bin/x\nstruct A;→#!/bin/x\nstruct A;→9→#!/bin/x§\
        \u{feff}#!/bin/x\r\nstruct A;\r\n→#!/bin/x\nstruct A;\n→9→#!/bin/x§\
        #!x\r\r\r\ny→#!x\r\r\ny→6→#!x§\
        #! \u{e9}\ry\r→#! \u{e9}\ry\r→8→#! \u{e9}\ry§\
        #!/x\n#!/y\n→#!/x\n#!/y\n→5→#!/x";
    each_holds(&rt, rt.alloc(), rows, BETWEEN, source);
}

/// The bytes of a row are no UTF-8 behind so many, the digit that stands before them.
fn no_text(alloc: Global, row: &[u8]) -> bool {
    match row.split_first() {
        Some((digit, bytes)) => match normalise(alloc, bytes) {
            Err(FormatError::Refused(Refusal::NotUtf8 { at })) => at
                == digit.wrapping_sub(b'0') as usize,
            _ => false,
        },
        None => false,
    }
}

#[test]
fn no_texts(rt: HostRuntime) {
    let rows =
        b"9struct A;\xff|0\xff|1a\xc3|1a\xe4\xb8|2\xc3\xa9\xf0\x9f\x98|0\xef\xbb|6\xef\xbb\xbfa\r\n\x80|1a\xc0\x80|0\xed\xa0\x80";
    for row in rows.split(|byte| *byte == b'|') {
        assert!(rt; no_text(rt.alloc(), row), "{row:?}");
    }
}

/// A token in words: its kind, where its piece begins and how long that is, its text, and `&` where it is joint.
fn shown(alloc: Global, token: &Token) -> Result<String, AllocError> {
    let text = match str::from_utf8(token.text.as_bytes()) {
        Ok(text) => text,
        Err(_) => "no text",
    };
    let joint = if token.joint { " &" } else { "" };
    format!(in alloc; "{:?} {}+{} {text}{joint}", token.kind, token.at, token.len)
}

fn is_shown(alloc: Global, token: &Token, words: &str) -> bool {
    match shown(alloc, token) {
        Ok(shown) => shown.as_str() == words,
        Err(_) => false,
    }
}

/// Whether these are the tokens, each in words, with ` | ` between two of them.
fn are(alloc: Global, tokens: &[Token], wanted: &str) -> bool {
    let mut left = tokens.iter();
    for words in wanted.split(" | ") {
        match left.next() {
            Some(token) => if !is_shown(alloc, token, words) {
                return false;
            },
            None => return words.is_empty(),
        }
    }
    left.next().is_none()
}

/// The text of a row lexes to these tokens.
fn lexes(alloc: Global, row: &str) -> bool {
    let (text, wanted) = parts(row);
    match tokens(alloc, text.as_bytes()) {
        Ok(tokens) => are(alloc, tokens.as_slice(), wanted),
        Err(_) => false,
    }
}

#[test]
fn numbers_and_points(rt: HostRuntime) {
    let rows = "x.0.1→Ident 0+1 x | Punct 1+1 . | Int 2+1 0 | Punct 3+1 . | Int 4+1 1§\
        x. /**/ 0.1→Ident 0+1 x | Punct 1+1 . | Int 8+1 0 | Punct 9+1 . | Int 10+1 1§\
        ..0.1→Punct 0+1 . & | Punct 1+1 . | Float 2+3 0.1§\
        . .0.1→Punct 0+1 . | Punct 2+1 . | Int 3+1 0 | Punct 4+1 . | Int 5+1 1§\
        0..1→Int 0+1 0 | Punct 1+1 . & | Punct 2+1 . | Int 3+1 1§\
        1.a→Int 0+1 1 | Punct 1+1 . | Ident 2+1 a§\
        1.→Float 0+2 1.§\
        1e5f→Float 0+4 1e5f§\
        1e5e3→Float 0+5 1e5e3§\
        1_e5→Float 0+4 1_e5§\
        x.0u8→Ident 0+1 x | Punct 1+1 . | Int 2+3 0u8";
    each_holds(&rt, rt.alloc(), rows, BETWEEN, lexes);
}

#[test]
fn words_quotes_and_marks(rt: HostRuntime) {
    let rows = "→§\
        \x20\t\u{2028}// a\n/* /* */ */→§\
        //→§\
        'a'→Char 0+3 'a'§\
        'a→Lifetime 0+2 'a§\
        r##\"x\"#\"##→RawStr 0+10 r##\"x\"#\"##§\
        b \"s\"→Ident 0+1 b | Str 2+3 \"s\"§\
        r#type→RawIdent 0+6 type§\
        &&,→Punct 0+1 & & | Punct 1+1 & | Punct 2+1 ,§\
        <<= ;:/**/:→Punct 0+1 < & | Punct 1+1 < & | Punct 2+1 = | Punct 4+1 ; | Punct 5+1 : | Punct 10+1 :§\
        \u{feff}#!/x\r\n\u{e9}{}→Ident 5+2 \u{e9} | Opener(Brace) 7+1 { | Closer(Brace) 8+1 }";
    each_holds(&rt, rt.alloc(), rows, BETWEEN, lexes);
}

#[test]
fn documentation(rt: HostRuntime) {
    let rows = "///→Doc { inner: false, block: false } 0+3 §\
        /// a  \nb→Doc { inner: false, block: false } 0+7  a | Ident 8+1 b§\
        //!/ \t\r\n→Doc { inner: true, block: false } 0+6 / \t§\
        ////\n/// \u{e9} →Doc { inner: false, block: false } 5+7  \u{e9}§\
        /** a */→Doc { inner: false, block: true } 0+8  a§\
        /** a \n */→Doc { inner: false, block: true } 0+10  a \n §\
        /*!*/ /*!/**/*/→Doc { inner: true, block: true } 0+5  | Doc { inner: true, block: true } 6+9 /**/§\
        /***/ /**/ /*** */→";
    each_holds(&rt, rt.alloc(), rows, BETWEEN, lexes);
}

/// No token is had at the place that stands behind the text of a row, and those before it are had.
fn no_token(alloc: Global, row: &str) -> bool {
    let (text, at) = parts(row);
    let wanted = at.parse::<usize>().unwrap_or(usize::MAX);
    match tokens(alloc, text.as_bytes()) {
        Err(FormatError::Refused(Refusal::NoToken { at })) => at == wanted,
        _ => false,
    }
}

#[test]
fn no_tokens(rt: HostRuntime) {
    let rows = "1e→0§0b12→0§0b1_2→0§0x1.0→0§'ab'→0§k\"s\"→0§r#self→0§/*/**/→0§/// a\rb→0§\
        a /* b */ /* /* c */→10§\
        ////x\n/***/struct A;/*/*x*/→20§\
        \u{feff}a\r\n\\→2§\
        #!/x\n\u{a0}→5§\
        a // \u{e9}\n\"→8";
    each_holds(&rt, rt.alloc(), rows, BETWEEN, no_token);
}

/// The window of a text behind so many tokens at least, in words: how many it has, where it ends, and where the text goes
/// on; or the error.
fn window(alloc: Global, text: &str, least: usize) -> Result<String, AllocError> {
    let found = match normalise(alloc, text.as_bytes()) {
        Ok(source) => lex_window(alloc, source.as_str(), source.start, least),
        Err(error) => Err(error),
    };
    match found {
        Ok(window) => {
            format!(in alloc;
                "{} {:?} {}",
                window.tokens.as_slice().len(),
                window.stop,
                window.end
            )
        }
        Err(error) => format!(in alloc; "{error:?}"),
    }
}

/// The text of a row has this window behind the number of tokens that stands before it.
fn is_window(alloc: Global, row: &str) -> bool {
    let (least, rest) = parts(row);
    let (text, wanted) = parts(rest);
    match window(alloc, text, least.parse::<usize>().unwrap_or(usize::MAX)) {
        Ok(window) => window.as_str() == wanted,
        Err(_) => false,
    }
}

#[test]
fn windows(rt: HostRuntime) {
    let rows = "0→→0 End 0§\
        9→ /*a*/ →0 End 7§\
        9→#!/x\na→1 End 6§\
        3→struct A; struct B;→3 More 9§\
        4→struct A; struct B;→6 End 19§\
        0→a b;c→3 More 4§\
        1→fn a(){}mod b{}→6 More 8§\
        1→a;#[b]c→2 More 2§\
        1→a;/// b→2 More 2§\
        1→a;\"b\"→3 End 5§\
        1→a{};b→4 More 4§\
        1→{}else{}→5 End 8§\
        1→{}as a;b→5 More 7§\
        1→(a;b)c→6 End 6§\
        1→[{}a;b]→7 End 7§\
        9→mod a{struct B;}→3 Opened 6§\
        9→mod r#a {}→3 Opened 9§\
        9→r#mod a{}→4 End 9§\
        9→fn a(){mod b{}}→10 End 15§\
        9→struct B;}c→4 Closed 10§\
        1→}c→1 Closed 1§\
        9→)}→2 Closed 2§\
        9→a;'→Refused(NoToken { at: 2 })§\
        1→a;b '→2 More 2";
    each_holds(&rt, rt.alloc(), rows, BETWEEN, is_window);
}
