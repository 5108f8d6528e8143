//! Made by scripts/rust.sh from crates/lay_tree/src/operators.rt, which is proved: change that.
//!
//! Equality of operators, and of the parameters of closures.
use crate::generated::lay_code::{ClosureParam, Op, Prefix};
use crate::generated::lay_same_nodes::Same;
/// Whether two operators are equal.
pub fn same_op(op: &Op, other: &Op) -> bool {
    match op {
        Op::Set => matches!(other, Op::Set),
        Op::AddSet => matches!(other, Op::AddSet),
        Op::SubSet => matches!(other, Op::SubSet),
        Op::MulSet => matches!(other, Op::MulSet),
        Op::DivSet => matches!(other, Op::DivSet),
        Op::RemSet => matches!(other, Op::RemSet),
        Op::XorSet => matches!(other, Op::XorSet),
        Op::AndSet => matches!(other, Op::AndSet),
        Op::OrSet => matches!(other, Op::OrSet),
        Op::ShlSet => matches!(other, Op::ShlSet),
        Op::ShrSet => matches!(other, Op::ShrSet),
        Op::Upto => matches!(other, Op::Upto),
        Op::UptoEq => matches!(other, Op::UptoEq),
        Op::OrOr => matches!(other, Op::OrOr),
        Op::AndAnd => matches!(other, Op::AndAnd),
        Op::EqEq => matches!(other, Op::EqEq),
        Op::Differ => matches!(other, Op::Differ),
        Op::Less => matches!(other, Op::Less),
        Op::Greater => matches!(other, Op::Greater),
        Op::LessEq => matches!(other, Op::LessEq),
        Op::GreaterEq => matches!(other, Op::GreaterEq),
        Op::BitOr => matches!(other, Op::BitOr),
        Op::BitXor => matches!(other, Op::BitXor),
        Op::BitAnd => matches!(other, Op::BitAnd),
        Op::Shl => matches!(other, Op::Shl),
        Op::Shr => matches!(other, Op::Shr),
        Op::Add => matches!(other, Op::Add),
        Op::Sub => matches!(other, Op::Sub),
        Op::Mul => matches!(other, Op::Mul),
        Op::Div => matches!(other, Op::Div),
        Op::Rem => matches!(other, Op::Rem),
    }
}
/// Whether two prefix operators are equal.
fn same_prefix(prefix: &Prefix, other: &Prefix) -> bool {
    match prefix {
        Prefix::Neg => matches!(other, Prefix::Neg),
        Prefix::Deref => matches!(other, Prefix::Deref),
        Prefix::Bang => matches!(other, Prefix::Bang),
        Prefix::Amp => matches!(other, Prefix::Amp),
        Prefix::AmpMut => matches!(other, Prefix::AmpMut),
        Prefix::RawConst => matches!(other, Prefix::RawConst),
        Prefix::RawMut => matches!(other, Prefix::RawMut),
    }
}
/// Whether two parameters of closures are equal.
fn same_param(param: &ClosureParam, other: &ClosureParam) -> bool {
    param.attrs.same(&other.attrs) && param.pat.same(&other.pat)
        && param.ty.same(&other.ty)
}
/// Whether two lists of prefix operators are equal.
pub fn same_prefixes(prefixes: &[Prefix], others: &[Prefix]) -> bool {
    if prefixes.len() != others.len() {
        return false;
    }
    for (prefix, other) in prefixes.iter().zip(others) {
        if !same_prefix(prefix, other) {
            return false;
        }
    }
    true
}
/// Whether the parameters of two closures are equal.
pub fn same_params(params: &[ClosureParam], others: &[ClosureParam]) -> bool {
    if params.len() != others.len() {
        return false;
    }
    for (param, other) in params.iter().zip(others) {
        if !same_param(param, other) {
            return false;
        }
    }
    true
}
