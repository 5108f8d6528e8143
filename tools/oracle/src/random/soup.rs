//! Random tokens, as macro calls and attributes may hold.

use crate::rng::Rng;

const DELIMITERS: [(&str, &str); 3] = [("(", ")"), ("[", "]"), ("{", "}")];

#[rustfmt::skip]
const SIGNS: [&str; 42] = [
    "=", "<", ">", "!", "~", "+", "-", "*", "/", "%", "^", "&", "@", ".", ",", ";", ":", "#", "$", "?", "|", "==", "<=", ">=", "!=", "&&",
    "||", "->", "<-", "=>", "::", "..", "...", "..=", "<<", ">>", "+=", "-=", "<<=", ">>=", "|=", "&=",
];

/// Words, literals, documentation, comments and groups.
#[rustfmt::skip]
const PIECES: [&str; 67] = [
    "a", "b", "Vec", "m", "self", "Self", "crate", "fn", "let", "if", "match", "mut", "ref", "const", "as", "dyn", "true", "gen", "raw",
    "yield", "r#fn", "r#a", "_", "'a", "'static", "'a'", "'\\n'", "b'a'", "\"s\"", "\"a\nb \"", "r\"x\"", "r#\"y\"#", "b\"z\"", "br#\"q\"#",
    "c\"c\"", "cr\"d\"", "0", "1", "42", "1_0", "0x1f", "0b1", "1u8", "1.5", "1.", "1e5", "2.5e-3f32", "1f64", "0usize", "/// d\n",
    "//! e\n", "/** f */", "/** g\n h */", "/*! i\nj*/", "///\n", "//!\n", "/*!k*/", "/*c*/", "//p\n", "()", "[]", "{}", "(a)", "[b]",
    "{c}", "(///z\n)", "{/** y\n*/}",
];

/// A sign or another piece.
pub fn piece(r: &mut Rng) -> &'static str {
    if r.chance(3, 5) {
        *r.pick(&SIGNS)
    } else {
        *r.pick(&PIECES)
    }
}

/// A text of n draws: pieces, with and without blanks between them, in delimiters that match.
pub fn tokens(r: &mut Rng, n: u64) -> String {
    let mut text = String::new();
    let mut open: Vec<&str> = Vec::new();
    for _ in 0..n {
        match r.below(20) {
            0 => {
                let (opener, closer) = *r.pick(&DELIMITERS);
                text.push_str(opener);
                open.push(closer);
            }
            1 => text.push_str(open.pop().unwrap_or_default()),
            _ => text.push_str(piece(r)),
        }
        match r.below(10) {
            0..=4 => {}
            5 => text.push('\n'),
            _ => text.push(' '),
        }
    }
    while let Some(closer) = open.pop() {
        text.push_str(closer);
    }
    text
}
