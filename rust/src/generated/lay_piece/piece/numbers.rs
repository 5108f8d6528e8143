//! Made by scripts/rust.sh from crates/lay_piece/src/piece/numbers.rt, which is proved: change that.
//!
//! Number literals.
use crate::generated::lay_piece::kind::Kind;
use crate::generated::lay_piece::piece::chars::{CharSet, first};
/// The base of a number literal.
#[derive(Clone, Copy, Debug, PartialEq, Eq)]
pub enum Base {
    Binary,
    Octal,
    Decimal,
    Hexadecimal,
}
impl Base {
    /// Whether the character is a digit of this base.
    pub fn has_digit(self, c: char) -> bool {
        match self {
            Base::Binary => '0' <= c && c <= '1',
            Base::Octal => '0' <= c && c <= '7',
            Base::Decimal => c.is_ascii_digit(),
            Base::Hexadecimal => c.is_ascii_hexdigit(),
        }
    }
    fn is_decimal(self) -> bool {
        match self {
            Base::Decimal => true,
            _ => false,
        }
    }
    /// Whether a run of digits goes on with the character, which may be a digit that this base
    /// doesn't have.
    pub fn goes_on(self, c: char) -> bool {
        match self {
            Base::Hexadecimal => c.is_ascii_hexdigit() || c == '_',
            _ => c.is_ascii_digit() || c == '_',
        }
    }
}
/// A number literal, or a tuple index; `s` is the whole text. If `index` is true, it is the leading
/// digits, where no letter follows them.
pub fn number(index: bool, s: &str) -> Option<(Kind, &str)> {
    if index {
        let rest = CharSet::Digit(Base::Decimal).after(s);
        if !CharSet::Word.begins(rest) {
            return Some((Kind::Int, rest));
        }
    }
    plain_number(s)
}
fn plain_number(s: &str) -> Option<(Kind, &str)> {
    let (base, digits) = split_base(s);
    whole(base, after_run(base, digits)?)
}
/// The base of a number, and its digits with the text after them.
fn split_base(s: &str) -> (Base, &str) {
    let tail = match first(s) {
        Some(('0', tail)) => tail,
        _ => {
            return (Base::Decimal, s);
        }
    };
    match first(tail) {
        Some(('x', digits)) => (Base::Hexadecimal, digits),
        Some(('o', digits)) => (Base::Octal, digits),
        Some(('b', digits)) => (Base::Binary, digits),
        _ => (Base::Decimal, s),
    }
}
/// The text after a run of digits and underscores; `None` if it has no digit, or one that the base
/// doesn't have.
fn after_run(base: Base, s: &str) -> Option<&str> {
    let digits = CharSet::Only('_').after(s);
    if !CharSet::Digit(base).begins(digits) {
        return None;
    }
    let rest = CharSet::Digits(base).after(digits);
    if CharSet::Run(base).begins(rest) {
        return None;
    }
    Some(rest)
}
/// The number after its whole part: a point or an exponent makes a decimal number a Float.
fn whole(base: Base, s: &str) -> Option<(Kind, &str)> {
    match first(s) {
        None => Some((Kind::Int, s)),
        Some((c, tail)) => {
            if is_point(c, tail) {
                if base.is_decimal() { point(tail) } else { None }
            } else if CharSet::ExponentLetter.contains(c) {
                if base.is_decimal() { exponent(tail) } else { None }
            } else { suffixed(Kind::Int, s) }
        }
    }
}
/// Whether `c`, before `tail`, is the point of a Float, and not that of a range, a field or a
/// method call.
fn is_point(c: char, tail: &str) -> bool {
    if c != '.' {
        return false;
    }
    match first(tail) {
        Some((d, _)) => !(d == '.' || CharSet::WordStart.contains(d)),
        None => true,
    }
}
/// The number after the point of a Float.
fn point(s: &str) -> Option<(Kind, &str)> {
    if CharSet::Digit(Base::Decimal).begins(s) {
        fraction(CharSet::Digits(Base::Decimal).after(s))
    } else { Some((Kind::Float, s)) }
}
/// The number after the digits of its fraction.
fn fraction(s: &str) -> Option<(Kind, &str)> {
    match first(s) {
        None => suffixed(Kind::Float, s),
        Some((c, tail)) => {
            if CharSet::ExponentLetter.contains(c) { exponent(tail) } else {
                suffixed(Kind::Float, s)
            }
        }
    }
}
/// The number after the letter of its exponent.
fn exponent(s: &str) -> Option<(Kind, &str)> {
    let (c, tail) = first(s)?;
    let digits = if CharSet::Sign.contains(c) { tail } else { s };
    suffixed(Kind::Float, after_run(Base::Decimal, digits)?)
}
/// The number with its suffix, if one follows.
fn suffixed(kind: Kind, s: &str) -> Option<(Kind, &str)> {
    if CharSet::WordStart.begins(s) {
        Some((kind, CharSet::Word.after(s)))
    } else if CharSet::Word.begins(s) { None } else { Some((kind, s)) }
}
