//! Made by scripts/rust.sh from crates/lay_piece/src/piece/chars.rt, which is proved: change that.
//!
//! Sets of characters, the first character of a text, and runs of characters.
use crate::generated::lay_piece::piece::numbers::Base;
/// A set of characters.
#[derive(Clone, Copy, Debug, PartialEq, Eq)]
pub enum CharSet {
    /// What may begin an identifier: XID_Start or `_`.
    WordStart,
    /// What an identifier may go on with: XID_Continue.
    Word,
    /// A quote or a `#`: after a word it makes the word a prefix, as in `b"x"`.
    Mark,
    /// A `'` or a `#`, which may not follow a lifetime.
    Tick,
    /// The sign of an exponent: `+` or `-`.
    Sign,
    /// The letter of an exponent: `e` or `E`.
    ExponentLetter,
    /// A character of a line of documentation: any but LF and CR.
    DocLine,
    /// White space that a backslash at the end of a line skips.
    Skipped,
    /// `*` or `/`: what follows `/**` if that begins no documentation.
    StarOrSlash,
    /// A digit of this base.
    Digit(Base),
    /// A digit of this base, or an underscore.
    Digits(Base),
    /// What a number of this base goes on with: digits that may be wrong for the base included.
    Run(Base),
    /// Only this character.
    Only(char),
}
impl CharSet {
    /// Whether the character is in the set.
    #[inline(always)]
    pub fn contains(self, c: char) -> bool {
        match self {
            CharSet::WordStart => is_word_start(c),
            CharSet::Word => is_in_word(c),
            CharSet::Mark => c == '"' || c == '\'' || c == '#',
            CharSet::Tick => c == '\'' || c == '#',
            CharSet::Sign => c == '+' || c == '-',
            CharSet::ExponentLetter => c == 'e' || c == 'E',
            CharSet::DocLine => !(c == '\n' || c == '\r'),
            CharSet::Skipped => c == '\n' || c == ' ' || c == '\t',
            CharSet::StarOrSlash => c == '*' || c == '/',
            CharSet::Digit(base) => base.has_digit(c),
            CharSet::Digits(base) => base.has_digit(c) || c == '_',
            CharSet::Run(base) => base.goes_on(c),
            CharSet::Only(other) => c == other,
        }
    }
    /// The text after the longest run of the set's characters at the beginning.
    #[inline(always)]
    pub fn after(self, s: &str) -> &str {
        match self {
            CharSet::Word => after_word(s),
            _ => self.after_each(s),
        }
    }
    fn after_each(self, s: &str) -> &str {
        let mut rest = s;
        while let Some((c, tail)) = first(rest) {
            if !self.contains(c) {
                break;
            }
            rest = tail;
        }
        rest
    }
    /// Whether the text begins with a character of the set.
    #[inline(always)]
    pub(crate) fn begins(self, s: &str) -> bool {
        match first(s) {
            Some((c, _)) => self.contains(c),
            None => false,
        }
    }
}
/// Whether the character may begin an identifier. ASCII is tested first, without the table.
#[inline(always)]
fn is_word_start(c: char) -> bool {
    if c.is_ascii() { c.is_ascii_alphabetic() || c == '_' } else {
        crate::generated::identifiers::is_xid_start(c)
    }
}
/// Whether an identifier may go on with the character.
#[inline(always)]
fn is_in_word(c: char) -> bool {
    if c.is_ascii() { c.is_ascii_alphabetic() || c.is_ascii_digit() || c == '_' } else {
        crate::generated::identifiers::is_xid_continue(c)
    }
}
/// The text after the longest run of identifier characters at the beginning.
fn after_word(s: &str) -> &str {
    let mut rest = s;
    while let Some((c, tail)) = first(rest) {
        if !is_in_word(c) {
            break;
        }
        rest = tail;
    }
    rest
}
/// The first character, and the text after it.
#[inline]
pub fn first(s: &str) -> Option<(char, &str)> {
    let mut rest = s.chars();
    let c = rest.next()?;
    Some((c, rest.as_str()))
}
/// The text after this character, if it begins with it.
pub fn behind(c: char, s: &str) -> Option<&str> {
    match first(s) {
        Some((d, rest)) => if c == d { Some(rest) } else { None },
        None => None,
    }
}
