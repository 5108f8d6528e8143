//! Made by scripts/rust.sh from crates/lay_node/src/heads.rt, which is proved: change that.
//!
//! The heads of items, and the items that consist of a head alone.
use crate::generated::lay_node::fields::{Field, Fields, Variant};
use crate::generated::lay_node::generics::{Generics, Wheres};
use crate::generated::lay_node::token::{GivenName, Name, Word};
use crate::generated::lay_node::types::{Bound, Path, Ty};
use crate::generated::lay_token::List;
/// Where an item stands, which decides what kinds of items are allowed.
#[derive(Clone, Copy, Debug, PartialEq, Eq)]
pub enum Site {
    /// In a file or a module.
    Module,
    /// In an implementation.
    Member,
    /// In a trait.
    TraitMember,
    /// In a foreign block.
    Foreign,
}
/// `extern crate a as b` (Rust Reference, "Extern crate declarations")
#[derive(Clone, Debug, PartialEq, Eq)]
pub struct ExternCrate {
    /// A name, or `self`.
    pub word: Word,
    pub renamed: Option<GivenName>,
}
/// `type A<B>: C = D where E` (Rust Reference, "Type aliases", "Associated Items")
#[derive(Clone, Debug, PartialEq, Eq)]
pub struct Alias {
    pub name: Name,
    pub generics: Generics,
    pub bounds: List<Bound>,
    pub ty: Option<Ty>,
    pub wheres: Wheres,
}
/// `struct A<B>(C) where D` (Rust Reference, "Structs"). The where clause stands before named
/// fields, and after all others.
#[derive(Clone, Debug, PartialEq, Eq)]
pub struct Struct {
    pub name: Name,
    pub generics: Generics,
    pub fields: Fields,
    pub wheres: Wheres,
}
/// `union A<B> where C { d: E }` (Rust Reference, "Unions")
#[derive(Clone, Debug, PartialEq, Eq)]
pub struct Union {
    pub name: Name,
    pub generics: Generics,
    pub wheres: Wheres,
    pub fields: List<Field>,
}
/// `enum A<B> where C { D }` (Rust Reference, "Enumerations")
#[derive(Clone, Debug, PartialEq, Eq)]
pub struct Enum {
    pub name: Name,
    pub generics: Generics,
    pub wheres: Wheres,
    pub variants: List<Variant>,
}
/// The head of a constant or of a static (Rust Reference, "Constant items", "Static items"):
/// everything before its value.
#[derive(Clone, Debug, PartialEq, Eq)]
#[non_exhaustive]
pub enum ValueHead {
    /// `const A: B`
    Const {
        name: GivenName,
        ty: Ty,
    },
    /// `static mut A: B`
    Static {
        mutable: bool,
        name: Name,
        ty: Ty,
    },
}
/// The head of a trait (Rust Reference, "Traits"): everything before its where clause.
#[derive(Clone, Debug, PartialEq, Eq)]
pub struct TraitHead {
    pub is_unsafe: bool,
    pub name: Name,
    pub generics: Generics,
    pub bounds: List<Bound>,
}
/// The head of an implementation (Rust Reference, "Implementations"): everything before its where
/// clause.
#[derive(Clone, Debug, PartialEq, Eq)]
pub struct ImplHead {
    pub is_unsafe: bool,
    pub generics: Generics,
    pub of: Option<TraitRef>,
    pub ty: Ty,
}
/// The trait of an implementation: `A for`, or `!A for` of a negative one.
#[derive(Clone, Debug, PartialEq, Eq)]
pub struct TraitRef {
    pub negative: bool,
    pub path: Path,
}
