//! Made by scripts/rust.sh from crates/lay_node/src/fields.rt, which is proved: change that.
//!
//! Fields, and the variants of enumerations.
use crate::generated::lay_node::attr::Attr;
use crate::generated::lay_node::token::Name;
use crate::generated::lay_node::tokens::Tokens;
use crate::generated::lay_node::types::Ty;
use crate::generated::lay_node::vis::Vis;
use crate::generated::lay_token::List;
/// The fields of a struct or of a variant (Rust Reference, "Structs", "Enumerations").
#[derive(Clone, Debug, PartialEq, Eq)]
pub enum Fields {
    /// Nothing.
    Unit,
    /// `(pub A, B)`
    Tuple {
        fields: List<TupleField>,
    },
    /// `{ pub a: A, b: B }`
    Named {
        fields: List<Field>,
    },
}
/// A field without a name. After `pub` its type is not `(crate)`, `(self)` or `(super)`, which
/// would be read as part of the visibility.
#[derive(Clone, Debug, PartialEq, Eq)]
pub struct TupleField {
    pub attrs: List<Attr>,
    pub vis: Vis,
    pub ty: Ty,
}
/// A field with a name.
#[derive(Clone, Debug, PartialEq, Eq)]
pub struct Field {
    pub attrs: List<Attr>,
    pub vis: Vis,
    pub name: Name,
    pub ty: Ty,
}
/// A variant of an enumeration.
#[derive(Clone, Debug, PartialEq, Eq)]
pub struct Variant {
    pub attrs: List<Attr>,
    pub vis: Vis,
    pub name: Name,
    pub fields: Fields,
    /// ` = 1`, with at least one token, and without a `,` outside its groups
    pub discriminant: Option<Tokens>,
}
