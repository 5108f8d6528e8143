//! Made by scripts/rust.sh from crates/lay_code/src/operators.rt, which is proved: change that.
//!
//! Binary and prefix operators.
/// A binary operator (Rust Reference, "Operator expressions").
#[derive(Clone, Copy, Debug, PartialEq, Eq)]
#[non_exhaustive]
pub enum Op {
    /// `=`
    Set,
    /// `+=`
    AddSet,
    /// `-=`
    SubSet,
    /// `*=`
    MulSet,
    /// `/=`
    DivSet,
    /// `%=`
    RemSet,
    /// `^=`
    XorSet,
    /// `&=`
    AndSet,
    /// `|=`
    OrSet,
    /// `<<=`
    ShlSet,
    /// `>>=`
    ShrSet,
    /// `..`
    Upto,
    /// `..=`
    UptoEq,
    /// `||`
    OrOr,
    /// `&&`
    AndAnd,
    /// `==`
    EqEq,
    /// `!=`
    Differ,
    /// `<`
    Less,
    /// `>`
    Greater,
    /// `<=`
    LessEq,
    /// `>=`
    GreaterEq,
    /// `|`
    BitOr,
    /// `^`
    BitXor,
    /// `&`
    BitAnd,
    /// `<<`
    Shl,
    /// `>>`
    Shr,
    /// `+`
    Add,
    /// `-`
    Sub,
    /// `*`
    Mul,
    /// `/`
    Div,
    /// `%`
    Rem,
}
impl Op {
    /// The operator as it is written.
    #[inline]
    pub fn text(self) -> &'static [u8] {
        match self {
            Op::Set => b"=",
            Op::AddSet => b"+=",
            Op::SubSet => b"-=",
            Op::MulSet => b"*=",
            Op::DivSet => b"/=",
            Op::RemSet => b"%=",
            Op::XorSet => b"^=",
            Op::AndSet => b"&=",
            Op::OrSet => b"|=",
            Op::ShlSet => b"<<=",
            Op::ShrSet => b">>=",
            Op::Upto => b"..",
            Op::UptoEq => b"..=",
            Op::OrOr => b"||",
            Op::AndAnd => b"&&",
            Op::EqEq => b"==",
            Op::Differ => b"!=",
            Op::Less => b"<",
            Op::Greater => b">",
            Op::LessEq => b"<=",
            Op::GreaterEq => b">=",
            Op::BitOr => b"|",
            Op::BitXor => b"^",
            Op::BitAnd => b"&",
            Op::Shl => b"<<",
            Op::Shr => b">>",
            Op::Add => b"+",
            Op::Sub => b"-",
            Op::Mul => b"*",
            Op::Div => b"/",
            Op::Rem => b"%",
        }
    }
}
/// A prefix operator (Rust Reference, "Borrow operators", "Dereference operator", "Negation
/// operators").
#[derive(Clone, Copy, Debug, PartialEq, Eq)]
#[non_exhaustive]
pub enum Prefix {
    /// `-`
    Neg,
    /// `*`
    Deref,
    /// `!`
    Bang,
    /// `&`
    Amp,
    /// `&mut`
    AmpMut,
    /// `&raw const`
    RawConst,
    /// `&raw mut`
    RawMut,
}
