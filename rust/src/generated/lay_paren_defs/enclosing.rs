//! Made by scripts/rust.sh from crates/lay_paren_defs/src/enclosing.rt, which is proved: change that.
//!
//! Whether each part of a tree gets parentheses, as a type parameter.
use crate::generated::lay_code::Expr;
/// Whether a walk over a tree sees it with each part in parentheses, or as it is. It is a type and
/// no flag, so a walk over trees as they are costs nothing more.
pub trait Enclose {
    /// Whether parts get parentheses.
    fn on() -> bool;
}
/// The tree as it is.
pub struct AsIs;
impl Enclose for AsIs {
    fn on() -> bool {
        false
    }
}
/// The tree with each part in parentheses.
pub struct Enclosed;
impl Enclose for Enclosed {
    fn on() -> bool {
        true
    }
}
/// Whether the body of an arm or of a closure gets parentheses: if parts do, then each body but an
/// unlabelled block.
pub fn is_body_enclosed<X: Enclose>(body: &Expr) -> bool {
    match body {
        Expr::Block { label, .. } => {
            match label {
                None => false,
                Some(_) => X::on(),
            }
        }
        _ => X::on(),
    }
}
