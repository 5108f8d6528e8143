//! Made by scripts/rust.sh from crates/lay_nest/src/operator.rt, which is proved: change that.
//!
//! Which operator the next tokens are.
use crate::generated::lay_token::{Kind, Token};
/// Whether the tokens begin with this operator, and with no longer one (Rust Reference,
/// "Punctuation").
pub fn is_op(tokens: &[Token], op: &[u8]) -> bool {
    match tokens.split_first() {
        Some((front, behind)) => may_begin(front, op) && is_begun(front, behind, op),
        None => false,
    }
}
/// Whether the operator may begin with the token: the token is punctuation, and their first
/// characters are equal.
fn may_begin(token: &Token, op: &[u8]) -> bool {
    match token.kind {
        Kind::Punct => is_same_first(token.text.as_bytes(), op),
        _ => false,
    }
}
/// Whether two texts have the same first byte, or both are empty.
fn is_same_first(text: &[u8], op: &[u8]) -> bool {
    match (text, op) {
        ([], []) => true,
        ([first, ..], [other, ..]) => *first == *other,
        _ => false,
    }
}
/// Whether the tokens `front` and then `behind` begin with this operator, and with no longer one.
#[inline(never)]
fn is_begun(front: &Token, behind: &[Token], op: &[u8]) -> bool {
    if front.joint { is_longest(front, behind, op) } else { is_alone(front, op) }
}
/// Whether the longest operator that begins with the joint token `front` is this one.
fn is_longest(front: &Token, behind: &[Token], op: &[u8]) -> bool {
    let first = mark(front);
    let second = first_mark(behind);
    let third = second_mark(behind);
    if is_three(first, second, third) {
        op == [first, second, third].as_slice()
    } else if is_two(first, second) { op == [first, second].as_slice() } else {
        is_alone(front, op)
    }
}
/// Whether the token by itself is this operator.
fn is_alone(token: &Token, op: &[u8]) -> bool {
    match token.kind {
        Kind::Punct => op == token.text.as_bytes(),
        _ => false,
    }
}
/// The character of a token that is punctuation, else 0.
fn mark(token: &Token) -> u8 {
    match token.kind {
        Kind::Punct => one(token.text.as_bytes()),
        _ => 0,
    }
}
/// The only byte of a text that has one byte, else 0.
fn one(text: &[u8]) -> u8 {
    match text {
        [byte] => *byte,
        _ => 0,
    }
}
fn first_mark(tokens: &[Token]) -> u8 {
    match tokens.first() {
        Some(token) => mark(token),
        None => 0,
    }
}
fn second_mark(tokens: &[Token]) -> u8 {
    match tokens.split_first() {
        Some((token, behind)) if token.joint => first_mark(behind),
        _ => 0,
    }
}
/// Whether the three characters are an operator.
fn is_three(first: u8, second: u8, third: u8) -> bool {
    match third {
        b'=' => {
            match first {
                b'<' | b'>' | b'.' => first == second,
                _ => false,
            }
        }
        b'.' => first == b'.' && second == b'.',
        _ => false,
    }
}
/// Whether the two characters are an operator.
fn is_two(first: u8, second: u8) -> bool {
    match second {
        b'=' => is_before_equals(first),
        b'>' => {
            match first {
                b'>' | b'-' | b'=' => true,
                _ => false,
            }
        }
        b'-' => first == b'<',
        b'&' | b'|' | b'<' | b':' | b'.' => first == second,
        _ => false,
    }
}
/// Whether the character and `=` are an operator.
fn is_before_equals(first: u8) -> bool {
    match first {
        b'=' | b'!' | b'<' | b'>' | b'+' | b'-' | b'*' | b'/' | b'%' | b'^' | b'&'
        | b'|' => true,
        _ => false,
    }
}
