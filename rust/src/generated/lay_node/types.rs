//! Made by scripts/rust.sh from crates/lay_node/src/types.rt, which is proved: change that.
//!
//! Types, paths, generic arguments and bounds.
use crate::generated::lay_node::attr::Attr;
use crate::generated::lay_node::boxed::Boxed;
use crate::generated::lay_node::token::{GivenName, Lifetime, Literal, Name, Word};
use crate::generated::lay_node::tokens::{MacroCall, Tokens};
use crate::generated::lay_token::List;
/// How a path spells generic arguments: in expressions after `::`; in types after an optional `::`,
/// where they may also be in parentheses, as in `Fn(A) -> B`.
#[derive(Clone, Copy, Debug, PartialEq, Eq)]
pub enum PathStyle {
    Code,
    Kind,
}
/// Where a type stands: where `A + B` may stand without parentheses, or where it may not.
#[derive(Clone, Copy, Debug, PartialEq, Eq)]
pub enum TypePlace {
    Bounds,
    NoBounds,
}
/// A type (Rust Reference, "Types"). A type within another counts one level of depth more.
#[derive(Clone, Debug, PartialEq, Eq)]
#[non_exhaustive]
pub enum Ty {
    /// `a::B<C>`
    Path {
        path: Path,
    },
    /// `m!(a)`
    Call {
        call: MacroCall,
    },
    /// `(A)`
    Paren {
        inner: Boxed<Ty>,
    },
    /// `(A, B)`
    Tuple {
        elements: List<Ty>,
    },
    /// `!`
    Never,
    /// `_`
    Infer,
    /// `*const A`, `*mut A`
    Ptr {
        mutable: bool,
        inner: Boxed<Ty>,
    },
    /// `&'a mut A`
    Ref {
        lifetime: Option<Lifetime>,
        mutable: bool,
        inner: Boxed<Ty>,
    },
    /// `[A]`
    Slice {
        inner: Boxed<Ty>,
    },
    /// `[A; n]`, with at least one token after the `;`
    Array {
        inner: Boxed<Ty>,
        length: Tokens,
    },
    /// `for<'a> unsafe extern "C" fn(a: A, ...) -> B`. Its parts are boxed to keep `Ty` small.
    Func {
        binder: Boxed<Option<Binder>>,
        is_unsafe: bool,
        abi: Boxed<Option<Abi>>,
        params: List<FuncParam>,
        variadic: bool,
        output: Option<Boxed<Ty>>,
    },
    /// `impl A + B`, or `dyn A + B` if it is dynamic, with at least one bound
    Bounds {
        dynamic: bool,
        bounds: List<Bound>,
    },
}
/// A parameter of a function type.
#[derive(Clone, Debug, PartialEq, Eq)]
pub struct FuncParam {
    pub attrs: List<Attr>,
    pub name: Option<GivenName>,
    pub ty: Ty,
}
/// A path (Rust Reference, "Paths"), with at least one segment.
#[derive(Clone, Debug, PartialEq, Eq)]
pub struct Path {
    pub start: PathStart,
    /// Each word with its generic arguments. (They are a pair, since in this cycle of types a list
    /// can't hold a struct of the cycle.)
    pub segments: List<(Word, Args)>,
}
/// What a path begins with.
#[derive(Clone, Debug, PartialEq, Eq)]
#[non_exhaustive]
pub enum PathStart {
    /// Nothing.
    Local,
    /// `::`
    Global,
    /// `<A as B>::` or `<A>::`
    Qualified {
        ty: Boxed<Ty>,
        of: Option<Boxed<Path>>,
    },
}
/// The generic arguments of a segment.
#[derive(Clone, Debug, PartialEq, Eq)]
#[non_exhaustive]
pub enum Args {
    None,
    /// `<A, 'a, 1, B = C>`
    Angle {
        args: List<Arg>,
    },
    /// `(A, B) -> C`
    Round {
        inputs: List<Ty>,
        output: Option<Boxed<Ty>>,
    },
}
/// A generic argument.
#[derive(Clone, Debug, PartialEq, Eq)]
#[non_exhaustive]
pub enum Arg {
    /// `'a`
    Region {
        lifetime: Lifetime,
    },
    /// `A`
    Plain {
        ty: Ty,
    },
    /// `1`, `-1`, `{ n }`
    Const {
        value: ConstArg,
    },
    /// `A<B> = C`, `A<B>: C`
    Named {
        name: Name,
        args: Args,
        constraint: Constraint,
    },
}
/// What a generic argument says of an associated item, as in `Iterator<Item = A>`. With the name it
/// counts one level of depth more.
#[derive(Clone, Debug, PartialEq, Eq)]
#[non_exhaustive]
pub enum Constraint {
    /// ` = A`
    Equal {
        ty: Ty,
    },
    /// ` = 1`
    EqualConst {
        value: ConstArg,
    },
    /// `: A + B`, with at least one bound
    Limit {
        bounds: List<Bound>,
    },
}
/// A bound (Rust Reference, "Trait and lifetime bounds").
#[derive(Clone, Debug, PartialEq, Eq)]
#[non_exhaustive]
pub enum Bound {
    /// `'a`
    Outlives {
        lifetime: Lifetime,
    },
    /// `?for<'a> A<'a>`, in parentheses or not
    Meets {
        parens: bool,
        maybe: bool,
        binder: Option<Binder>,
        path: Path,
    },
    /// `use<'a, A>`: what an `impl` type captures
    Captures {
        captured: List<Capture>,
    },
}
/// What `use<..>` names: a lifetime, a type parameter, or `Self` (Rust Reference, "Use bounds").
#[derive(Clone, Debug, PartialEq, Eq)]
#[non_exhaustive]
pub enum Capture {
    /// `'a`
    Region {
        lifetime: Lifetime,
    },
    /// `A`, `Self`
    Word {
        word: Word,
    },
}
/// A const generic argument.
#[derive(Clone, Debug, PartialEq, Eq)]
#[non_exhaustive]
pub enum ConstArg {
    /// `1`, `true`
    Literal(Literal),
    /// `-1`: a number after a `-`
    Negative(Literal),
    /// `{ n }`: a group of tokens in braces
    Braces(Tokens),
}
/// `for<'a, 'b: 'a>`
#[derive(Clone, Debug, PartialEq, Eq)]
pub struct Binder {
    pub params: List<LifetimeParam>,
}
/// A generic parameter that is a lifetime: `#[a] 'b: 'c + 'd`
#[derive(Clone, Debug, PartialEq, Eq)]
pub struct LifetimeParam {
    pub attrs: List<Attr>,
    pub lifetime: Lifetime,
    pub bounds: List<Lifetime>,
}
/// `extern`, or `extern "C"`: a string without suffix
#[derive(Clone, Debug, PartialEq, Eq)]
pub struct Abi {
    pub name: Option<Literal>,
}
