//! Tokens that are told one by one, worked out by hand from the Rust Reference's rules.
use crate::read::each::each_holds;
use lay_lex::normalise;
use lay_lex::one_by_one::{Cursor, Lexeme};
use lay_test_rows::{BETWEEN, parts};
use std::alloc::{AllocError, Global};
use std::str;

/// A token in words: its kind, where its piece begins and how long that is, and its text.
fn shown(alloc: Global, lexeme: &Lexeme<'_>) -> Result<String, AllocError> {
    let text = match str::from_utf8(lexeme.text) {
        Ok(text) => text,
        Err(_) => "no text",
    };
    format!(in alloc; "{:?} {}+{} {text}", lexeme.kind, lexeme.at, lexeme.len)
}

fn is_shown(alloc: Global, lexeme: &Lexeme<'_>, words: &str) -> bool {
    match shown(alloc, lexeme) {
        Ok(shown) => shown.as_str() == words,
        Err(_) => false,
    }
}

/// Whether these tokens are ahead, each in words, with ` | ` between two of them.
fn are(alloc: Global, cursor: Cursor<'_>, wanted: &str) -> bool {
    let mut left = cursor;
    for words in wanted.split(" | ") {
        match left.next() {
            Some(lexeme) => if !is_shown(alloc, &lexeme, words) {
                return false;
            },
            None => return words.is_empty(),
        }
    }
    left.next().is_none()
}

/// These tokens are ahead at the start of the text of a row, and still are where a copy has gone past one.
fn lexes(alloc: Global, row: &str) -> bool {
    let (text, wanted) = parts(row);
    match normalise(alloc, text.as_bytes()) {
        Ok(source) => {
            let cursor = Cursor::new(source.as_str(), source.start);
            let mut copy = cursor;
            let _ = copy.next();
            are(alloc, cursor, wanted)
        }
        Err(_) => false,
    }
}

#[test]
fn one_by_one(rt: HostRuntime) {
    let rows = "→§\
        \x20/* a */ // b→§\
        x.0.1 ..0.1→Ident 0+1 x | Punct 1+1 . | Int 2+1 0 | Punct 3+1 . | Int 4+1 1 | Punct 6+1 . | Punct 7+1 . | Float 8+3 0.1§\
        r#type/// a  \n/** b */{→RawIdent 0+6 type | Doc { inner: false, block: false } 6+7  a | Doc { inner: false, block: true } 14+8  b | Opener(Brace) 22+1 {§\
        \u{feff}#!/x\r\n\u{e9};→Ident 5+2 \u{e9} | Punct 7+1 ;§\
        a 'bc'→Ident 0+1 a";
    each_holds(&rt, rt.alloc(), rows, BETWEEN, lexes);
}
