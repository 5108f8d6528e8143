//! Calls that build files: each makes one node of a syntax tree, and a call that would make a node
//! which no source parses to refuses. So a generator puts no text together, and
//! [`unparse`](crate::unparse) prints every file that [`file`](file()) makes.
//!
//! ```
//! use froesaffron::build::*;
//! use froesaffron::unparse;
//!
//! fn limit() -> Result<BuiltItem, BuildError> {
//!     let sum = expr_binary(Op::Add, expr_int(60)?, expr_int(4)?)?;
//!     let value = expr_binary(Op::Mul, sum, expr_int(1024)?)?;
//!     with_doc(item_const(true, "LIMIT", ty("u64")?, value)?, " The most bytes of a request.")
//! }
//!
//! let text = unparse(&file([limit()?])?)?;
//! assert_eq!(text, "/// The most bytes of a request.\npub const LIMIT: u64 = (60 + 4) * 1024;\n");
//! # Ok::<(), Box<dyn std::error::Error>>(())
//! ```
//!
//! What the syntax asks for is put in: a name that is a keyword becomes a raw identifier, an
//! operand gets the parentheses that it needs, a string is escaped. What can't be written is
//! refused by the call that would make it, with a [`BuildError`]: a text that is no identifier for
//! a name, an assignment for an operator between two values, a node that is nested more than 256
//! levels deep. So no call takes much of the stack. What a refused call was given is dropped.
//!
//! ```
//! use froesaffron::build::*;
//!
//! assert_eq!(ty("a b").unwrap_err().to_string(), "no name: \"a b\"");
//! let assigned = expr_binary(Op::Set, expr_path("a")?, expr_int(2)?);
//! assert_eq!(assigned.unwrap_err().to_string(), "no operator between two values: =");
//! # Ok::<(), BuildError>(())
//! ```
//!
//! A name is given as a `&str`, or as what [`name`] made of one ([`IntoName`]). A path is given as
//! a `&str` with `::` between its names, or as what [`path()`] made of many names ([`IntoPath`]).
//! Lists are given as whatever can be iterated over: an array, a `Vec`, an iterator. What was built
//! can be cloned, compared and shown by `{:?}`, and [`node`](Built::node) lends its node, of the
//! types of [`tree`](crate::tree).
use crate::generated::lay_text::{List, NoMemory};
use crate::shims::Global;
use alloc::string::String;
use core::fmt;

pub use crate::generated::lay_build::{
    Built, BuiltBlock, BuiltExpr, BuiltField, BuiltItem, BuiltName, BuiltParam, BuiltStmt,
    BuiltType, File, NamedExpr, NamedType, Op,
};

/// The calls over which those of `build` stand, which name the place that memory comes from and ask
/// more of who calls them. They aren't part of what a version of the crate promises.
#[doc(hidden)]
pub mod raw {
    pub use crate::generated::lay_build::{
        block, expr_binary, expr_call, expr_field, expr_if, expr_int, expr_method, expr_path,
        expr_str, expr_struct, field, file, item_const, item_fn, item_mod, item_struct, name,
        param, stmt_expr, stmt_let, type_path, type_ref, type_tuple, with_doc, BuildError, Built,
        BuiltBlock, BuiltExpr, BuiltField, BuiltItem, BuiltName, BuiltParam, BuiltStmt, BuiltType,
        File, List, NamedExpr, NamedType, NoMemory, Op,
    };
    pub use crate::shims::Global;
}

/// Why a call builds nothing.
#[derive(Clone, Debug, PartialEq, Eq)]
#[non_exhaustive]
pub enum BuildError {
    /// This text is no name: it is no identifier, or it is `_`, `crate`, `self`, `super` or `Self`.
    BadName(String),
    /// This operator is none between two values: it assigns, or it is that of a range.
    BadOperator(Op),
    /// The node would be nested deeper than files may be, which is 256 levels.
    TooDeep,
    /// Memory was not found.
    NoMemory,
}

impl fmt::Display for BuildError {
    fn fmt(&self, out: &mut fmt::Formatter<'_>) -> fmt::Result {
        match self {
            BuildError::BadName(text) => write!(out, "no name: {text:?}"),
            BuildError::BadOperator(op) => {
                write!(
                    out,
                    "no operator between two values: {}",
                    String::from_utf8_lossy(op.text())
                )
            }
            BuildError::TooDeep => out.write_str("too deep"),
            BuildError::NoMemory => out.write_str("no memory"),
        }
    }
}

#[cfg(core_error)]
impl core::error::Error for BuildError {}

#[cfg(all(feature = "std", not(core_error)))]
impl std::error::Error for BuildError {}

impl From<NoMemory> for BuildError {
    fn from(_: NoMemory) -> BuildError {
        BuildError::NoMemory
    }
}

/// Why a call with a `&str` for each text builds nothing. Only [`raw::name`] refuses a name, and
/// [`name`] says itself which.
impl From<raw::BuildError> for BuildError {
    fn from(why: raw::BuildError) -> BuildError {
        match why {
            raw::BuildError::TooDeep => BuildError::TooDeep,
            raw::BuildError::NoMemory => BuildError::NoMemory,
            raw::BuildError::BadName | raw::BuildError::BadText => unreachable!(),
        }
    }
}

/// What a name is made of: a text, or a name that was built.
///
/// ```
/// use froesaffron::build::*;
///
/// let len = name("len")?;
/// assert_eq!(param("len", ty("u32")?)?, param(len, ty("u32")?)?);
/// # Ok::<(), BuildError>(())
/// ```
pub trait IntoName: given::Sealed {
    /// The name, as [`name`] makes it of a text.
    fn into_name(self) -> Result<BuiltName, BuildError>;
}

impl IntoName for BuiltName {
    fn into_name(self) -> Result<BuiltName, BuildError> {
        Ok(self)
    }
}

impl IntoName for &str {
    fn into_name(self) -> Result<BuiltName, BuildError> {
        name(self)
    }
}

impl IntoName for &String {
    fn into_name(self) -> Result<BuiltName, BuildError> {
        name(self)
    }
}

/// What a path is made of: a text with `::` between its names, one name, or a path that was built.
///
/// ```
/// use froesaffron::build::*;
///
/// let names = ["std", "vec", "Vec"];
/// assert_eq!(expr_path("std::vec::Vec")?, expr_path(path(names)?)?);
/// # Ok::<(), BuildError>(())
/// ```
pub trait IntoPath: given::Sealed {
    /// The path, as [`path()`] makes it of the names.
    fn into_path(self) -> Result<BuiltPath, BuildError>;
}

impl IntoPath for BuiltPath {
    fn into_path(self) -> Result<BuiltPath, BuildError> {
        Ok(self)
    }
}

impl IntoPath for BuiltName {
    fn into_path(self) -> Result<BuiltPath, BuildError> {
        Ok(BuiltPath { first: self, rest: List::new(Global) })
    }
}

impl IntoPath for &str {
    fn into_path(self) -> Result<BuiltPath, BuildError> {
        path(self.split("::"))
    }
}

impl IntoPath for &String {
    fn into_path(self) -> Result<BuiltPath, BuildError> {
        self.as_str().into_path()
    }
}

/// The types for which [`IntoName`] and [`IntoPath`] are there. No others can be added, so that
/// calls may be.
mod given {
    pub trait Sealed {}

    impl Sealed for super::BuiltName {}
    impl Sealed for super::BuiltPath {}
    impl Sealed for &str {}
    impl Sealed for &alloc::string::String {}
}

/// The names of a path, one at least, that were built.
#[derive(Clone, Debug, PartialEq, Eq)]
pub struct BuiltPath {
    first: BuiltName,
    rest: List<BuiltName>,
}

/// A list of what was built.
fn list<T>(items: impl IntoIterator<Item = T>) -> Result<List<T>, BuildError> {
    let mut list = List::new(Global);
    for item in items {
        list.push(item).map_err(|_| BuildError::NoMemory)?;
    }
    Ok(list)
}

/// A name: an identifier. A keyword becomes a raw identifier where it may be one.
///
/// [`BuildError::BadName`] has the text where it is no identifier, and where it is `_` or one of
/// the path words `crate`, `self`, `super` and `Self`.
///
/// ```
/// use froesaffron::build::*;
///
/// assert!(name("type")?.node().raw);
/// assert_eq!(name("a-b"), Err(BuildError::BadName("a-b".to_string())));
/// # Ok::<(), BuildError>(())
/// ```
pub fn name(text: &str) -> Result<BuiltName, BuildError> {
    match raw::name(Global, text.as_bytes()) {
        Ok(made) => Ok(made),
        Err(raw::BuildError::BadName) => Err(bad_name(text)),
        Err(why) => Err(why.into()),
    }
}

/// The error that tells which text is no name.
fn bad_name(text: &str) -> BuildError {
    let mut copy = String::new();
    match copy.try_reserve_exact(text.len()) {
        Ok(()) => {
            copy.push_str(text);
            BuildError::BadName(copy)
        }
        Err(_) => BuildError::NoMemory,
    }
}

/// A path of these names, without arguments. One is there at least: of none, as of an empty text,
/// [`BuildError::BadName`] comes.
///
/// ```
/// use froesaffron::{build::*, unparse};
///
/// let of = type_path(path(["std", "vec", "Vec"])?, [ty("u8")?])?;
/// let text = unparse(&file([item_struct(false, "A", [param("b", of)?])?])?)?;
/// assert_eq!(text, "struct A {\n    b: std::vec::Vec<u8>,\n}\n");
/// # Ok::<(), Box<dyn std::error::Error>>(())
/// ```
pub fn path<N: IntoName>(names: impl IntoIterator<Item = N>) -> Result<BuiltPath, BuildError> {
    let mut names = names.into_iter();
    let first = match names.next() {
        Some(first) => first.into_name()?,
        None => return Err(bad_name("")),
    };
    let mut rest = List::new(Global);
    for name in names {
        rest.push(name.into_name()?).map_err(|_| BuildError::NoMemory)?;
    }
    Ok(BuiltPath { first, rest })
}

/// The type of a path without generic arguments: `a::B`. [`type_path`] makes one with arguments.
///
/// ```
/// use froesaffron::{build::*, unparse};
///
/// let text = unparse(&file([item_const(false, "A", ty("u64")?, expr_int(1)?)?])?)?;
/// assert_eq!(text, "const A: u64 = 1;\n");
/// # Ok::<(), Box<dyn std::error::Error>>(())
/// ```
pub fn ty(path: impl IntoPath) -> Result<BuiltType, BuildError> {
    type_path(path, [])
}

/// The type of a path, whose last name has these generic arguments, if there are any: `a::B<C, D>`.
///
/// ```
/// use froesaffron::{build::*, unparse};
///
/// let of = type_path("std::collections::HashMap", [ty("Name")?, type_path("Vec", [ty("u8")?])?])?;
/// let text = unparse(&file([item_const(false, "A", of, expr_path("B")?)?])?)?;
/// assert_eq!(text, "const A: std::collections::HashMap<Name, Vec<u8>> = B;\n");
/// # Ok::<(), Box<dyn std::error::Error>>(())
/// ```
pub fn type_path(
    path: impl IntoPath,
    args: impl IntoIterator<Item = BuiltType>,
) -> Result<BuiltType, BuildError> {
    let BuiltPath { first, rest } = path.into_path()?;
    Ok(raw::type_path(Global, first, rest, list(args)?)?)
}

/// A reference type: `&A`, or `&mut A` where it is `writable`.
///
/// ```
/// use froesaffron::{build::*, unparse};
///
/// let item = item_struct(false, "A", [param("b", type_ref(true, ty("C")?)?)?])?;
/// assert_eq!(unparse(&file([item])?)?, "struct A {\n    b: &mut C,\n}\n");
/// # Ok::<(), Box<dyn std::error::Error>>(())
/// ```
pub fn type_ref(writable: bool, of: BuiltType) -> Result<BuiltType, BuildError> {
    Ok(raw::type_ref(Global, writable, of)?)
}

/// A tuple type: `()`, `(A,)`, `(A, B)`.
///
/// ```
/// use froesaffron::{build::*, unparse};
///
/// let item = item_struct(false, "A", [param("b", type_tuple([ty("C")?])?)?])?;
/// assert_eq!(unparse(&file([item])?)?, "struct A {\n    b: (C,),\n}\n");
/// # Ok::<(), Box<dyn std::error::Error>>(())
/// ```
pub fn type_tuple(parts: impl IntoIterator<Item = BuiltType>) -> Result<BuiltType, BuildError> {
    Ok(raw::type_tuple(Global, list(parts)?)?)
}

/// The integer literal of a number, in decimal digits and without a suffix.
///
/// ```
/// use froesaffron::{build::*, unparse};
///
/// let item = item_const(false, "A", ty("u64")?, expr_int(u64::MAX.into())?)?;
/// assert_eq!(unparse(&file([item])?)?, "const A: u64 = 18446744073709551615;\n");
/// # Ok::<(), Box<dyn std::error::Error>>(())
/// ```
pub fn expr_int(value: u128) -> Result<BuiltExpr, BuildError> {
    Ok(raw::expr_int(Global, value)?)
}

/// The string literal whose value is the text. Quotes, backslashes, line feeds and carriage returns
/// in it are escaped.
///
/// ```
/// use froesaffron::{build::*, unparse};
///
/// let item = item_const(false, "A", type_ref(false, ty("str")?)?, expr_str("a\"b\\c\n")?)?;
/// assert_eq!(unparse(&file([item])?)?, "const A: &str = \"a\\\"b\\\\c\\n\";\n");
/// # Ok::<(), Box<dyn std::error::Error>>(())
/// ```
pub fn expr_str(text: &str) -> Result<BuiltExpr, BuildError> {
    Ok(raw::expr_str(Global, text.as_bytes())?)
}

/// A path without generic arguments: `a::B`.
///
/// ```
/// use froesaffron::{build::*, unparse};
///
/// let item = item_const(false, "A", ty("u8")?, expr_path("u8::MAX")?)?;
/// assert_eq!(unparse(&file([item])?)?, "const A: u8 = u8::MAX;\n");
/// # Ok::<(), Box<dyn std::error::Error>>(())
/// ```
pub fn expr_path(path: impl IntoPath) -> Result<BuiltExpr, BuildError> {
    let BuiltPath { first, rest } = path.into_path()?;
    Ok(raw::expr_path(Global, first, rest)?)
}

/// A field: `a.b`, or `(a + b).c` of a base that needs parentheses.
///
/// ```
/// use froesaffron::{build::*, unparse};
///
/// let item = item_const(false, "A", ty("u8")?, expr_field(expr_path("B")?, "type")?)?;
/// assert_eq!(unparse(&file([item])?)?, "const A: u8 = B.r#type;\n");
/// # Ok::<(), Box<dyn std::error::Error>>(())
/// ```
pub fn expr_field(base: BuiltExpr, field: impl IntoName) -> Result<BuiltExpr, BuildError> {
    Ok(raw::expr_field(Global, base, field.into_name()?)?)
}

/// A call of a method: `a.b(c, d)`. The base is put in parentheses where it needs them.
///
/// ```
/// use froesaffron::{build::*, unparse};
///
/// let value = expr_method(expr_int(1)?, "max", [expr_path("B")?])?;
/// let item = item_const(false, "A", ty("u8")?, value)?;
/// assert_eq!(unparse(&file([item])?)?, "const A: u8 = 1.max(B);\n");
/// # Ok::<(), Box<dyn std::error::Error>>(())
/// ```
pub fn expr_method(
    base: BuiltExpr,
    method: impl IntoName,
    args: impl IntoIterator<Item = BuiltExpr>,
) -> Result<BuiltExpr, BuildError> {
    Ok(raw::expr_method(Global, base, method.into_name()?, list(args)?)?)
}

/// A call: `a(b, c)`. A base that ends in a field is put in parentheses, `(a.b)(c)`, since it would
/// be the name of a method.
///
/// ```
/// use froesaffron::{build::*, unparse};
///
/// let called = expr_call(expr_field(expr_path("B")?, "c")?, [expr_int(1)?])?;
/// let item = item_const(false, "A", ty("u8")?, called)?;
/// assert_eq!(unparse(&file([item])?)?, "const A: u8 = (B.c)(1);\n");
/// # Ok::<(), Box<dyn std::error::Error>>(())
/// ```
pub fn expr_call(
    base: BuiltExpr,
    args: impl IntoIterator<Item = BuiltExpr>,
) -> Result<BuiltExpr, BuildError> {
    Ok(raw::expr_call(Global, base, list(args)?)?)
}

/// An operator between two values: `a + b`. An operand is put in parentheses unless it is a
/// literal, a path, a field or a call, so `(a + b) + c` has a pair that Rust doesn't need.
///
/// The operators are those from `||` to `%` in the order of [`Op`]. Of one that assigns or makes a
/// range [`BuildError::BadOperator`] comes.
///
/// ```
/// use froesaffron::{build::*, unparse};
///
/// let sum = expr_binary(Op::Add, expr_path("B")?, expr_int(1)?)?;
/// let item = item_const(false, "A", ty("u8")?, expr_binary(Op::Mul, sum, expr_int(2)?)?)?;
/// assert_eq!(unparse(&file([item])?)?, "const A: u8 = (B + 1) * 2;\n");
/// let range = expr_binary(Op::Upto, expr_int(1)?, expr_int(2)?);
/// assert_eq!(range, Err(BuildError::BadOperator(Op::Upto)));
/// # Ok::<(), Box<dyn std::error::Error>>(())
/// ```
pub fn expr_binary(op: Op, left: BuiltExpr, right: BuiltExpr) -> Result<BuiltExpr, BuildError> {
    match op {
        Op::Set
        | Op::AddSet
        | Op::SubSet
        | Op::MulSet
        | Op::DivSet
        | Op::RemSet
        | Op::XorSet
        | Op::AndSet
        | Op::OrSet
        | Op::ShlSet
        | Op::ShrSet
        | Op::Upto
        | Op::UptoEq => Err(BuildError::BadOperator(op)),
        Op::OrOr
        | Op::AndAnd
        | Op::EqEq
        | Op::Differ
        | Op::Less
        | Op::Greater
        | Op::LessEq
        | Op::GreaterEq
        | Op::BitOr
        | Op::BitXor
        | Op::BitAnd
        | Op::Shl
        | Op::Shr
        | Op::Add
        | Op::Sub
        | Op::Mul
        | Op::Div
        | Op::Rem => Ok(raw::expr_binary(Global, op, left, right)?),
    }
}

/// A struct literal: `a::B { c: d, e: f }`.
///
/// ```
/// use froesaffron::{build::*, unparse};
///
/// let value = expr_struct("a::B", [field("c", expr_int(1)?)?, field("d", expr_int(2)?)?])?;
/// let item = item_const(false, "A", ty("a::B")?, value)?;
/// assert_eq!(unparse(&file([item])?)?, "const A: a::B = a::B { c: 1, d: 2 };\n");
/// # Ok::<(), Box<dyn std::error::Error>>(())
/// ```
pub fn expr_struct(
    path: impl IntoPath,
    fields: impl IntoIterator<Item = BuiltField>,
) -> Result<BuiltExpr, BuildError> {
    let BuiltPath { first, rest } = path.into_path()?;
    Ok(raw::expr_struct(Global, first, rest, list(fields)?)?)
}

/// A branch: `if a { b }`, or with a block after `else`, `if a { b } else { c }`. What is tested is
/// put in parentheses unless it is a literal, a path, a field, a call or an operator between two
/// values.
///
/// ```
/// use froesaffron::{build::*, unparse};
///
/// let test = expr_binary(Op::EqEq, expr_path("B")?, expr_int(0)?)?;
/// let (then, other) = (block([], Some(expr_int(1)?))?, block([], Some(expr_int(2)?))?);
/// let value = expr_if(test, then, Some(other))?;
/// let item = item_const(false, "A", ty("u8")?, value)?;
/// assert_eq!(unparse(&file([item])?)?, "const A: u8 = if B == 0 { 1 } else { 2 };\n");
/// # Ok::<(), Box<dyn std::error::Error>>(())
/// ```
pub fn expr_if(
    test: BuiltExpr,
    then: BuiltBlock,
    other: Option<BuiltBlock>,
) -> Result<BuiltExpr, BuildError> {
    Ok(raw::expr_if(Global, test, then, other)?)
}

/// A field of a struct literal, for [`expr_struct`]: `a: b`.
pub fn field(name: impl IntoName, value: BuiltExpr) -> Result<BuiltField, BuildError> {
    Ok(raw::field(name.into_name()?, value)?)
}

/// A name with its type: a parameter, for [`item_fn`], or a field without visibility, for
/// [`item_struct`]: `a: B`.
pub fn param(name: impl IntoName, ty: BuiltType) -> Result<BuiltParam, BuildError> {
    Ok(raw::param(name.into_name()?, ty)?)
}

/// A statement that gives a value to a name, which has the type if one is given: `let a: B = c;`.
///
/// ```
/// use froesaffron::{build::*, unparse};
///
/// let first = stmt_let("a", Some(ty("u8")?), expr_int(1)?)?;
/// let second = stmt_let("b", None, expr_path("a")?)?;
/// let item = item_fn(false, "f", [], None, block([first, second], None)?)?;
/// assert_eq!(unparse(&file([item])?)?, "fn f() {\n    let a: u8 = 1;\n    let b = a;\n}\n");
/// # Ok::<(), Box<dyn std::error::Error>>(())
/// ```
pub fn stmt_let(
    name: impl IntoName,
    ty: Option<BuiltType>,
    value: BuiltExpr,
) -> Result<BuiltStmt, BuildError> {
    Ok(raw::stmt_let(Global, name.into_name()?, ty, value)?)
}

/// An expression as a statement, with its `;`: `a();`.
///
/// ```
/// use froesaffron::{build::*, unparse};
///
/// let body = block([stmt_expr(expr_call(expr_path("g")?, [])?)?], None)?;
/// let item = item_fn(false, "f", [], None, body)?;
/// assert_eq!(unparse(&file([item])?)?, "fn f() {\n    g();\n}\n");
/// # Ok::<(), Box<dyn std::error::Error>>(())
/// ```
pub fn stmt_expr(expr: BuiltExpr) -> Result<BuiltStmt, BuildError> {
    Ok(raw::stmt_expr(Global, expr)?)
}

/// A block of these statements. The expression, if there is one, stands last, without a `;`, and is
/// the value of the block: `{ a; b }`.
///
/// ```
/// use froesaffron::{build::*, unparse};
///
/// let stmts = (0..2).map(|n| stmt_let("a", None, expr_int(n)?)).collect::<Result<Vec<_>, _>>()?;
/// let item = item_fn(false, "f", [], None, block(stmts, Some(expr_path("a")?))?)?;
/// assert_eq!(unparse(&file([item])?)?, "fn f() {\n    let a = 0;\n    let a = 1;\n    a\n}\n");
/// # Ok::<(), Box<dyn std::error::Error>>(())
/// ```
pub fn block(
    stmts: impl IntoIterator<Item = BuiltStmt>,
    tail: Option<BuiltExpr>,
) -> Result<BuiltBlock, BuildError> {
    Ok(raw::block(Global, list(stmts)?, tail)?)
}

/// A struct whose fields have names, and no visibility: `pub struct A { b: C }`.
///
/// ```
/// use froesaffron::{build::*, unparse};
///
/// let item = item_struct(true, "A", [param("b", ty("u8")?)?, param("fn", ty("u8")?)?])?;
/// assert_eq!(unparse(&file([item])?)?, "pub struct A {\n    b: u8,\n    r#fn: u8,\n}\n");
/// # Ok::<(), Box<dyn std::error::Error>>(())
/// ```
pub fn item_struct(
    public: bool,
    name: impl IntoName,
    fields: impl IntoIterator<Item = BuiltParam>,
) -> Result<BuiltItem, BuildError> {
    Ok(raw::item_struct(Global, public, name.into_name()?, list(fields)?)?)
}

/// A constant: `const A: B = c;`.
///
/// ```
/// use froesaffron::{build::*, unparse};
///
/// let item = item_const(true, "A", ty("u8")?, expr_int(1)?)?;
/// assert_eq!(unparse(&file([item])?)?, "pub const A: u8 = 1;\n");
/// # Ok::<(), Box<dyn std::error::Error>>(())
/// ```
pub fn item_const(
    public: bool,
    name: impl IntoName,
    ty: BuiltType,
    value: BuiltExpr,
) -> Result<BuiltItem, BuildError> {
    Ok(raw::item_const(Global, public, name.into_name()?, ty, value)?)
}

/// A function of these parameters, with a result of the type if one is given: `fn a(b: C) -> D { e
/// }`.
///
/// ```
/// use froesaffron::{build::*, unparse};
///
/// let body = block([], Some(expr_path("a")?))?;
/// let item = item_fn(true, "same", [param("a", ty("u8")?)?], Some(ty("u8")?), body)?;
/// assert_eq!(unparse(&file([item])?)?, "pub fn same(a: u8) -> u8 {\n    a\n}\n");
/// # Ok::<(), Box<dyn std::error::Error>>(())
/// ```
pub fn item_fn(
    public: bool,
    name: impl IntoName,
    params: impl IntoIterator<Item = BuiltParam>,
    ret: Option<BuiltType>,
    body: BuiltBlock,
) -> Result<BuiltItem, BuildError> {
    Ok(raw::item_fn(Global, public, name.into_name()?, list(params)?, ret, body)?)
}

/// A module of these items: `mod a { struct B {} }`.
///
/// ```
/// use froesaffron::{build::*, unparse};
///
/// let item = item_mod(true, "a", [item_struct(false, "B", [])?])?;
/// assert_eq!(unparse(&file([item])?)?, "pub mod a {\n    struct B {}\n}\n");
/// # Ok::<(), Box<dyn std::error::Error>>(())
/// ```
pub fn item_mod(
    public: bool,
    name: impl IntoName,
    items: impl IntoIterator<Item = BuiltItem>,
) -> Result<BuiltItem, BuildError> {
    Ok(raw::item_mod(Global, public, name.into_name()?, list(items)?)?)
}

/// The item with one more piece of documentation, after those that it has: a comment or, where no
/// comment can say the text, the attribute `#[doc = "text"]`. No blank is put before the text.
///
/// ```
/// use froesaffron::{build::*, unparse};
///
/// let item = with_doc(with_doc(item_mod(false, "a", [])?, " One line.")?, "*/\n")?;
/// assert_eq!(unparse(&file([item])?)?, "/// One line.\n#[doc = \"*/\\n\"]\nmod a {}\n");
/// # Ok::<(), Box<dyn std::error::Error>>(())
/// ```
pub fn with_doc(item: BuiltItem, text: &str) -> Result<BuiltItem, BuildError> {
    Ok(raw::with_doc(Global, item, text.as_bytes())?)
}

/// The file of these items. [`unparse`](crate::unparse) prints it.
///
/// ```
/// use froesaffron::{build::*, unparse};
///
/// let items = ["A", "B"].map(|name| item_struct(false, name, []));
/// let made = file(items.into_iter().collect::<Result<Vec<_>, _>>()?)?;
/// assert_eq!(unparse(&made)?, "struct A {}\nstruct B {}\n");
/// # Ok::<(), Box<dyn std::error::Error>>(())
/// ```
pub fn file(items: impl IntoIterator<Item = BuiltItem>) -> Result<File, BuildError> {
    Ok(raw::file(Global, list(items)?)?)
}
