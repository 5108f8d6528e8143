//! Made by scripts/rust.sh from crates/lay_node/src/functions.rt, which is proved: change that.
//!
//! The heads of functions.
use crate::generated::lay_node::attr::Attr;
use crate::generated::lay_node::generics::Generics;
use crate::generated::lay_node::patterns::Pat;
use crate::generated::lay_node::token::{Lifetime, Name};
use crate::generated::lay_node::types::{Abi, Ty};
use crate::generated::lay_token::List;
/// The word before `fn` that says whether a function is safe to call.
#[derive(Clone, Copy, Debug, PartialEq, Eq)]
#[non_exhaustive]
pub enum Safety {
    /// `unsafe`
    Unsafe,
    /// `safe`, which only a function in a foreign block may have
    Safe,
}
/// The head of a function (Rust Reference, "Functions"): everything before its where clause.
#[derive(Clone, Debug, PartialEq, Eq)]
pub struct FnHead {
    pub is_const: bool,
    pub is_async: bool,
    pub safety: Option<Safety>,
    pub abi: Option<Abi>,
    pub name: Name,
    pub generics: Generics,
    /// A receiver may only stand first, and `...` only last.
    pub params: List<Param>,
    pub output: Option<Ty>,
}
/// A parameter of a function.
#[derive(Clone, Debug, PartialEq, Eq)]
pub struct Param {
    pub attrs: List<Attr>,
    pub kind: ParamKind,
}
/// The pattern and type of a parameter, or a receiver.
#[derive(Clone, Debug, PartialEq, Eq)]
#[non_exhaustive]
pub enum ParamKind {
    /// `&'a mut self`
    RefSelf {
        lifetime: Option<Lifetime>,
        mutable: bool,
    },
    /// `mut self: A`
    OwnSelf {
        mutable: bool,
        ty: Option<Ty>,
    },
    /// `a: A`
    Typed {
        pat: Pat,
        ty: Ty,
    },
    /// `...`
    Variadic,
    /// `a: ...`
    NamedVariadic {
        pat: Pat,
    },
}
