//! Trees of Rust files, for a generator that writes no text: it builds a [`File`], and
//! [`unparse`](crate::unparse) gives the text that reads to it.
//!
//! ```
//! use froesaffron::tree::*;
//! use froesaffron::{Cause, unparse};
//!
//! fn structure(name: &str) -> Result<File, NoMemory> {
//!     let name = Name { raw: false, text: Text::from_bytes(Global, name.as_bytes())? };
//!     let item = Struct {
//!         name,
//!         generics: Generics { params: List::new(Global) },
//!         fields: Fields::Unit,
//!         wheres: Wheres { predicates: List::new(Global) },
//!     };
//!     let kind = Boxed::new(Global, ItemKind::Struct { item })?;
//!     let mut items = List::new(Global);
//!     items.push(Item { attrs: List::new(Global), vis: Vis::Public, kind }).map_err(|_| NoMemory)?;
//!     Ok(File { shebang: None, attrs: List::new(Global), items })
//! }
//!
//! assert_eq!(unparse(&structure("Point")?).unwrap(), "pub struct Point;\n");
//! // No source reads to a struct that is named by a keyword.
//! assert_eq!(unparse(&structure("struct")?).unwrap_err().cause(), Cause::NotWritten);
//! # Ok::<(), NoMemory>(())
//! ```
//!
//! An expression lacks parentheses where its parts don't fit their places:
//! [`parenthesize`](crate::parenthesize) puts them in.
//!
//! Texts, lists and boxes answer want of memory instead of ending the program, and so each call
//! that may take memory is told where from: [`Global`] is the one place.
//!
//! # Copies, comparisons and `{:?}`
//!
//! Each type is `Clone`, `Debug`, `PartialEq` and `Eq`. Two trees are equal where their nodes are,
//! whatever memory they take. `{:?}` shows a text as a string, a list as a list and a box as what
//! it holds.
//!
//! ```
//! use froesaffron::tree::*;
//!
//! let name = Name { raw: false, text: Text::from_bytes(Global, b"limit")? };
//! assert_eq!(format!("{name:?}"), r#"Name { raw: false, text: "limit" }"#);
//! let of = Expr::Path { path: Path { start: PathStart::Local, segments: List::new(Global) } };
//! assert_eq!(of.clone(), of);
//! assert_ne!(of, Expr::Underscore);
//! # Ok::<(), NoMemory>(())
//! ```
//!
//! A clone ends the program where memory isn't found, as a clone of a `Vec` does: it is no call of
//! this crate that answers [`NoMemory`]. These three walk a tree down on the stack of who calls
//! them, as dropping one does, and no level is counted. Of 33 kinds of nesting, each as deep as
//! files may be, a clone took 0.5 MiB at most where the crate is optimised, and 1.0 where it isn't;
//! showing one 0.5 and 0.8, comparing two 0.1 and 0.6, dropping one 0.1 and 0.2. So a thread with
//! the 2 MiB that Rust gives it is enough for each tree that a source reads to, and not for trees
//! made by hand that are many times deeper.
//!
//! # What may be added
//!
//! Enums whose variants are the forms of a part of the language, such as [`Expr`], [`Ty`] and
//! [`ItemKind`], are `#[non_exhaustive]`: a later version of the crate may read more forms, so a
//! `match` on one has a `_`. Their variants are made as those of other enums are. Structs and the
//! fields of variants are written out, so that a compiler says which nodes want a field that a
//! later version adds.
pub use crate::generated::lay_ops::places::{FREE, STATEMENT};
pub use crate::generated::lay_text::{List, NoMemory, Text};
pub use crate::generated::lay_token::{Delim, Kind};
pub use crate::generated::lay_tree::{
    Abi, Alias, Arg, Args, Arm, Attr, Binder, Block, Bound, Boxed, Branch, Capture, ClosureParam,
    Condition, ConstArg, ConstDefault, Constraint, Enum, Expr, ExternCrate, Field, FieldExpr,
    FieldPat, Fields, File, FnHead, FuncParam, GenericParam, Generics, GivenName, Group, ImplHead,
    Item, ItemKind, Lifetime, LifetimeParam, Link, Listed, Literal, MacroCall, MetaInput, MetaPath,
    Name, Op, Param, ParamKind, Pat, PatPlace, PatValue, Path, PathStart, PathStyle, Place,
    Predicate, Prefix, Safety, SimplePath, Site, SpanEnd, Start, Step, Stmt, Struct, Tokens,
    TraitHead, TraitRef, TupleField, Ty, TypePlace, Union, UseEnd, UseTree, ValueHead, Variant,
    Vis, Wheres, Word,
};
pub use crate::shims::Global;
use core::fmt;

/// The text as a string. What isn't UTF-8 in it is shown as `\u{fffd}`.
impl fmt::Debug for Text {
    fn fmt(&self, out: &mut fmt::Formatter<'_>) -> fmt::Result {
        fmt::Debug::fmt(&alloc::string::String::from_utf8_lossy(self.as_bytes()), out)
    }
}

/// The items.
impl<T: fmt::Debug> fmt::Debug for List<T> {
    fn fmt(&self, out: &mut fmt::Formatter<'_>) -> fmt::Result {
        self.as_slice().fmt(out)
    }
}

/// What the box holds.
impl<T: fmt::Debug> fmt::Debug for Boxed<T> {
    fn fmt(&self, out: &mut fmt::Formatter<'_>) -> fmt::Result {
        self.get().fmt(out)
    }
}
