//! Made by scripts/rust.sh from crates/lay_ops/src/numbers.rt, which is proved: change that.
//!
//! Numbers without suffix.
use crate::generated::lay_code::Expr;
use crate::generated::lay_token::Kind;
/// The state of the automaton that recognizes numbers without suffix.
#[derive(Clone, Copy,)]
pub enum Reading {
    /// Before the first character of an integer.
    Start,
    /// `0`
    Zero,
    /// Digits after which only digits can follow.
    Digits,
    /// `0x` and hexadecimal digits.
    Hex,
    /// The digits of a float before its point or exponent.
    Whole,
    /// The digits after a point.
    Fraction,
    /// After the letter of an exponent.
    Exponent,
    /// This is no number without suffix.
    Refused,
}
/// Whether an expression is a number without suffix.
pub fn is_number(expr: &Expr) -> bool {
    match expr {
        Expr::Lit { literal } => is_bare_number(literal.kind, literal.text.as_bytes()),
        _ => false,
    }
}
/// Whether a number has no suffix.
fn is_bare_number(kind: Kind, text: &[u8]) -> bool {
    match kind {
        Kind::Int => reads(text, Reading::Start),
        Kind::Float => reads(text, Reading::Whole),
        _ => false,
    }
}
/// Whether the rest of the text completes a number from this state.
fn reads(text: &[u8], start: Reading) -> bool {
    let mut reading = start;
    let mut rest = text;
    while let Some((byte, behind)) = rest.split_first() {
        reading = leads_to(reading, *byte);
        rest = behind;
    }
    !matches!(reading, Reading::Refused)
}
/// The state after one more byte. Only ASCII makes a number.
fn leads_to(reading: Reading, byte: u8) -> Reading {
    match reading {
        Reading::Start => if byte == b'0' { Reading::Zero } else { digits(byte) },
        Reading::Zero => {
            if byte == b'x' { Reading::Hex } else if byte == b'o' || byte == b'b' {
                Reading::Digits
            } else { digits(byte) }
        }
        Reading::Digits => digits(byte),
        Reading::Hex => if in_hex(byte) { Reading::Hex } else { Reading::Refused },
        Reading::Whole => {
            if in_digits(byte) { Reading::Whole } else if byte == b'.' {
                Reading::Fraction
            } else { exponent(byte) }
        }
        Reading::Fraction => {
            if in_digits(byte) { Reading::Fraction } else { exponent(byte) }
        }
        Reading::Exponent => {
            if byte == b'+' || byte == b'-' { Reading::Digits } else { digits(byte) }
        }
        Reading::Refused => Reading::Refused,
    }
}
/// `Digits`, if the byte is one, else `Refused`.
fn digits(byte: u8) -> Reading {
    if in_digits(byte) { Reading::Digits } else { Reading::Refused }
}
/// `Exponent`, if the byte is its letter, else `Refused`.
fn exponent(byte: u8) -> Reading {
    if byte == b'e' || byte == b'E' { Reading::Exponent } else { Reading::Refused }
}
/// Whether the byte is a digit or an underscore.
fn in_digits(byte: u8) -> bool {
    b'0' <= byte && byte <= b'9' || byte == b'_'
}
/// Whether the byte is a hexadecimal digit or an underscore.
fn in_hex(byte: u8) -> bool {
    in_digits(byte) || b'A' <= byte && byte <= b'F' || b'a' <= byte && byte <= b'f'
}
