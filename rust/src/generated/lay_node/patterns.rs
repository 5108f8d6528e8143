//! Made by scripts/rust.sh from crates/lay_node/src/patterns.rt, which is proved: change that.
//!
//! Patterns.
use crate::generated::lay_node::attr::Attr;
use crate::generated::lay_node::boxed::Boxed;
use crate::generated::lay_node::token::{Literal, Name};
use crate::generated::lay_node::tokens::MacroCall;
use crate::generated::lay_node::types::Path;
use crate::generated::lay_token::{List, Text};
/// Where a pattern stands: where alternatives may stand without parentheses, or where they may not.
#[derive(Clone, Copy, Debug, PartialEq, Eq)]
pub enum PatPlace {
    Alternatives,
    Single,
}
/// A pattern (Rust Reference, "Patterns"). A pattern within another counts one level of depth more.
#[derive(Clone, Debug, PartialEq, Eq)]
#[non_exhaustive]
pub enum Pat {
    /// `A | B`, with at least two alternatives
    Or {
        alternatives: List<Pat>,
    },
    /// `1`, `-1`, `"a"`
    Value {
        value: PatValue,
    },
    /// `_`
    Wild,
    /// `..`
    Rest,
    /// `m!(a)`
    Call {
        call: MacroCall,
    },
    /// `a::B`, `A::<B>::C`, but not a single name: that is `Bind`
    Path {
        path: Path,
    },
    /// `ref mut a @ B`
    Bind {
        by_ref: bool,
        mutable: bool,
        name: Name,
        of: Option<Boxed<Pat>>,
    },
    /// `1..=2`, `a::B..`, `..1`, with at least one end. The ends are boxed to keep `Pat` small.
    Span {
        start: Boxed<Option<SpanEnd>>,
        inclusive: bool,
        end: Boxed<Option<SpanEnd>>,
    },
    /// `&mut A`
    Ref {
        mutable: bool,
        inner: Boxed<Pat>,
    },
    /// `A { b: C, 0: D, e, .. }`
    Struct {
        path: Path,
        fields: List<FieldPat>,
        rest: bool,
    },
    /// `A(B, C)`
    TupleStruct {
        path: Path,
        elements: List<Pat>,
    },
    /// `(A, B)`
    Tuple {
        elements: List<Pat>,
    },
    /// `(A)`
    Paren {
        inner: Boxed<Pat>,
    },
    /// `[A, B]`
    Slice {
        elements: List<Pat>,
    },
}
/// A field in a struct pattern.
#[derive(Clone, Debug, PartialEq, Eq)]
#[non_exhaustive]
pub enum FieldPat {
    /// `a: B`
    Named {
        attrs: List<Attr>,
        name: Name,
        pat: Pat,
    },
    /// `0: B`
    Index {
        attrs: List<Attr>,
        index: Text,
        pat: Pat,
    },
    /// `ref mut a`: the field of this name, bound to the name
    Short {
        attrs: List<Attr>,
        pat: Pat,
    },
}
/// A literal in a pattern, or a negative number.
#[derive(Clone, Debug, PartialEq, Eq)]
pub struct PatValue {
    pub negative: bool,
    pub literal: Literal,
}
/// An end of a range pattern.
#[derive(Clone, Debug, PartialEq, Eq)]
#[non_exhaustive]
pub enum SpanEnd {
    /// `1`, `-1`
    Value(PatValue),
    /// `a::B`, with generic arguments after `::` as in expressions
    Path(Path),
}
