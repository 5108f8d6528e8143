//! Made by scripts/rust.sh from crates/lay_piece/src/kind.rt, which is proved: change that.
//!
//! The kinds of tokens.
/// The three kinds of delimiters.
#[derive(Clone, Copy, Debug, PartialEq, Eq)]
pub enum Delim {
    /// `(` and `)`
    Paren,
    /// `[` and `]`
    Bracket,
    /// `{` and `}`
    Brace,
}
/// The kind of a token (Rust Reference, "Tokens"). Each variant's comment gives an example of a
/// whole token.
#[derive(Clone, Copy, Debug, PartialEq, Eq)]
pub enum Kind {
    /// `name`, and each keyword
    Ident,
    /// `r#type`
    RawIdent,
    /// `_`
    Underscore,
    /// `'a`
    Lifetime,
    /// `'x'`
    Char,
    /// `"x\n"`
    Str,
    /// `r#"x"#`
    RawStr,
    /// `b'x'`
    Byte,
    /// `b"x\xff"`
    ByteStr,
    /// `br#"x"#`
    RawByteStr,
    /// `c"x"`
    CStr,
    /// `cr#"x"#`
    RawCStr,
    /// `0xff_u8`
    Int,
    /// `1.5e-3f64`
    Float,
    /// `+`: one character of punctuation
    Punct,
    /// `(`
    Opener(Delim),
    /// `)`
    Closer(Delim),
    /// `/// text`, `//! text`, `/** text */` or `/*! text */`: documentation of what follows, or
    /// with `inner` of what it stands in, as a line or as a block.
    Doc {
        inner: bool,
        block: bool,
    },
}
