//! Made by scripts/rust.sh from crates/lay_ops/src/operators.rt, which is proved: change that.
//!
//! Lookahead: which operator comes next.
use crate::generated::lay_code::{Op, Prefix};
use crate::generated::lay_nest::Cursor;
use crate::generated::lay_read_tokens::front::is_keyword;
use crate::generated::lay_token::Kind;
/// The precedence level of a binary operator: 0 for assignments, up to 10 for `*`.
pub(crate) fn op_level(op: Op) -> u8 {
    match op {
        Op::Upto | Op::UptoEq => 1,
        Op::OrOr => 2,
        Op::AndAnd => 3,
        Op::EqEq | Op::Differ | Op::Less | Op::Greater | Op::LessEq | Op::GreaterEq => 4,
        Op::BitOr => 5,
        Op::BitXor => 6,
        Op::BitAnd => 7,
        Op::Shl | Op::Shr => 8,
        Op::Add | Op::Sub => 9,
        Op::Mul | Op::Div | Op::Rem => 10,
        _ => 0,
    }
}
/// The binary operator that comes next, if one does. The first character limits which ones it can
/// be.
pub fn binary(at: &Cursor<'_>) -> Option<Op> {
    match at.peek(0) {
        Some(token) => {
            match token.text.as_bytes() {
                [character, ..] => first_of(at, led_by(*character)),
                [] => None,
            }
        }
        None => None,
    }
}
/// The operators that begin with the character.
fn led_by(character: u8) -> &'static [Op] {
    match character {
        b'=' => &[Op::Set, Op::EqEq],
        b'+' => &[Op::AddSet, Op::Add],
        b'-' => &[Op::SubSet, Op::Sub],
        b'*' => &[Op::MulSet, Op::Mul],
        b'/' => &[Op::DivSet, Op::Div],
        b'%' => &[Op::RemSet, Op::Rem],
        b'^' => &[Op::XorSet, Op::BitXor],
        b'&' => &[Op::AndSet, Op::AndAnd, Op::BitAnd],
        b'|' => &[Op::OrSet, Op::OrOr, Op::BitOr],
        b'<' => &[Op::ShlSet, Op::Less, Op::LessEq, Op::Shl],
        b'>' => &[Op::ShrSet, Op::Greater, Op::GreaterEq, Op::Shr],
        b'.' => &[Op::Upto, Op::UptoEq],
        b'!' => &[Op::Differ],
        _ => &[],
    }
}
/// The operator of the list that comes next, if one does.
fn first_of(at: &Cursor<'_>, ops: &[Op]) -> Option<Op> {
    let mut rest = ops;
    while let [op, others @ ..] = rest {
        if at.op_is(op.text()) {
            return Some(*op);
        }
        rest = others;
    }
    None
}
/// Whether the keyword comes next after `others` tokens.
pub(crate) fn is_word(at: &Cursor<'_>, others: usize, word: &[u8]) -> bool {
    match at.peek(others) {
        Some(token) => is_keyword(token, word),
        None => false,
    }
}
/// The prefix operator that comes next, if one does.
pub fn prefix(at: &Cursor<'_>) -> Option<Prefix> {
    match at.peek(0) {
        Some(token) if matches!(token.kind, Kind::Punct) => {
            match token.text.as_bytes() {
                b"-" => Some(Prefix::Neg),
                b"*" => Some(Prefix::Deref),
                b"!" => Some(Prefix::Bang),
                b"&" => Some(reference(at)),
                _ => None,
            }
        }
        _ => None,
    }
}
/// The prefix operator that begins with `&`, which comes next.
fn reference(at: &Cursor<'_>) -> Prefix {
    if is_word(at, 1, b"mut") { Prefix::AmpMut } else if !is_word(at, 1, b"raw") {
        Prefix::Amp
    } else if is_word(at, 2, b"const") {
        Prefix::RawConst
    } else if is_word(at, 2, b"mut") { Prefix::RawMut } else { Prefix::Amp }
}
/// The number of tokens of a prefix operator.
pub fn prefix_length(prefix: Prefix) -> usize {
    match prefix {
        Prefix::AmpMut => 2,
        Prefix::RawConst | Prefix::RawMut => 3,
        _ => 1,
    }
}
