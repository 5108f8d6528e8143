//! Made by scripts/rust.sh from crates/lay_build_exprs/src/leaves.rt, which is proved: change that.
//!
//! Builders of literals and paths.
use crate::generated::lay_build_exprs::keeping::kept_with;
use crate::shims::Buffer;
use crate::generated::lay_build_types::{
    BuildError,
    BuiltExpr,
    BuiltName,
    nodes,
    path,
    string_literal,
};
use crate::generated::lay_code::{Args, Expr, Literal};
use crate::generated::lay_piece::Kind;
use crate::generated::lay_text::{List, NoMemory, Text};
use crate::shims::Global;
use core::str;
/// The depth of an expression that contains no other.
const LEAF: u32 = 1;
/// An integer literal, in decimal digits and without suffix.
pub fn expr_int(alloc: Global, value: u128) -> Result<BuiltExpr, BuildError> {
    match Text::from_bytes(alloc, Buffer::new().format(value).as_bytes()) {
        Ok(text) => {
            kept_with(Expr::Lit { literal: Literal { kind: Kind::Int, text } }, Ok(LEAF))
        }
        Err(NoMemory) => Err(BuildError::NoMemory),
    }
}
/// The string literal whose value is this text. The error is `BadText` if the text is not UTF-8.
pub fn expr_str(alloc: Global, text: &[u8]) -> Result<BuiltExpr, BuildError> {
    if !is_text(text) {
        return Err(BuildError::BadText);
    }
    let text = string_literal(alloc, text)?;
    kept_with(Expr::Lit { literal: Literal { kind: Kind::Str, text } }, Ok(LEAF))
}
/// Whether bytes are UTF-8.
fn is_text(bytes: &[u8]) -> bool {
    str::from_utf8(bytes).is_ok()
}
/// A path as an expression: `a::b::C`.
pub fn expr_path(
    alloc: Global,
    first: BuiltName,
    rest: List<BuiltName>,
) -> Result<BuiltExpr, BuildError> {
    let (first, _) = first.into_parts();
    let (rest, _) = nodes(alloc, rest)?;
    let path = path(alloc, first, rest, Args::None)?;
    kept_with(Expr::Path { path }, Ok(LEAF))
}
