//! The calls of the crate: from a source to its text, from a tree to its text, and from an expression to the one with its parentheses.
use crate::Error;
use crate::furthest::with_furthest;
use crate::generated::lay_files::{self, read_bytes, write_file};
use crate::generated::lay_io::{Failed, Sink};
use crate::generated::{lay_laws, lay_paren};
use crate::shims::Global;
use crate::stack::with_stack;
use crate::tree::{Expr, File, Place};
use alloc::string::String;
use alloc::vec::Vec;

/// The laid-out text of a source, a whole file.
///
/// ```
/// assert_eq!(froesaffron::format("struct A{a:u8} // gone")?, "struct A {\n    a: u8,\n}\n");
/// let error = froesaffron::format("struct A; struct").unwrap_err();
/// assert_eq!((error.line(), error.column()), (1, 11));
/// # Ok::<(), froesaffron::Error>(())
/// ```
pub fn format(source: &str) -> Result<String, Error> {
    Ok(string(format_bytes(source.as_bytes())?))
}

/// The laid-out text of a source that may be no UTF-8, which is then refused.
///
/// ```
/// use froesaffron::{Cause, format_bytes};
///
/// assert_eq!(format_bytes(b"struct A ;")?, b"struct A;\n");
/// assert_eq!(format_bytes(b"struct \xff;").unwrap_err().cause(), Cause::NotUtf8);
/// # Ok::<(), froesaffron::Error>(())
/// ```
pub fn format_bytes(source: &[u8]) -> Result<Vec<u8>, Error> {
    Error::of_length(source.len())?;
    with_stack(|| match lay_files::format_bytes(Global, source) {
        Ok(text) => Ok(text.into_vec().into_std()),
        Err(error) => Err(with_furthest(error.into(), source)),
    })
    .ok_or(Error::NO_MEMORY)?
}

/// Whether a source is its own laid-out text.
///
/// ```
/// assert!(froesaffron::check("struct A;\n")?);
/// assert!(!froesaffron::check("struct A ;\n")?);
/// # Ok::<(), froesaffron::Error>(())
/// ```
pub fn check(source: impl AsRef<[u8]>) -> Result<bool, Error> {
    let source = source.as_ref();
    Ok(format_bytes(source)? == source)
}

/// The tree of a source, a whole file. [`unparse`] gives its text.
///
/// ```
/// use froesaffron::tree::{ItemKind, Vis};
///
/// let mut file = froesaffron::read("mod a{} struct B;")?;
/// for item in file.items.as_mut_slice() {
///     if matches!(*item.kind.get(), ItemKind::Struct { .. }) {
///         item.vis = Vis::Public;
///     }
/// }
/// assert_eq!(froesaffron::unparse(&file)?, "mod a {}\npub struct B;\n");
/// # Ok::<(), froesaffron::Error>(())
/// ```
///
/// To drop a tree takes stack for each of its levels, of which a source has 256 at most.
pub fn read(source: &str) -> Result<File, Error> {
    Error::of_length(source.len())?;
    with_stack(|| match read_bytes(Global, source.as_bytes()) {
        Ok(file) => Ok(file),
        Err(error) => Err(with_furthest(error.into(), source.as_bytes())),
    })
    .ok_or(Error::NO_MEMORY)?
}

/// The text of a tree, which reads to that tree. A tree that no source reads to, or one deeper than files may be, has none:
/// the cause is [`Cause::NotWritten`](crate::Cause::NotWritten).
///
/// A tree is counted before it is looked at, which takes stack for each of its levels, as dropping it does: some ten thousand levels are
/// too many for both.
///
/// ```
/// use froesaffron::tree::*;
///
/// let file = File { shebang: None, attrs: List::new(Global), items: List::new(Global) };
/// assert_eq!(froesaffron::unparse(&file)?, "");
/// # Ok::<(), froesaffron::Error>(())
/// ```
///
/// [`tree`](crate::tree) and [`build`](crate::build) have longer ones.
pub fn unparse(file: &File) -> Result<String, Error> {
    with_stack(|| match lay_laws::is_written(Global, file)? {
        true => Ok(string(text_of(file)?)),
        false => Err(Error::NOT_WRITTEN),
    })
    .ok_or(Error::NO_MEMORY)?
}

/// Whether the expression lacks nothing but parentheses. What [`parenthesize`] makes of such a tree can be written in its place, unless it is too
/// deep. One with a keyword for a name has another fault, and so has one deeper than files may be.
///
/// A tree is counted before it is looked at, as by [`unparse`].
///
/// ```
/// use froesaffron::is_loose;
/// use froesaffron::tree::*;
///
/// fn variable(name: &str) -> Result<Expr, NoMemory> {
///     let word = Word { raw: false, text: Text::from_bytes(Global, name.as_bytes())? };
///     let mut segments = List::new(Global);
///     segments.push((word, Args::None)).map_err(|_| NoMemory)?;
///     Ok(Expr::Path { path: Path { start: PathStart::Local, segments } })
/// }
///
/// assert!(is_loose(&variable("a")?)?);
/// assert!(!is_loose(&variable("struct")?)?);
/// # Ok::<(), froesaffron::Error>(())
/// ```
pub fn is_loose(expr: &Expr) -> Result<bool, Error> {
    with_stack(|| Ok(lay_laws::is_loose(Global, expr)?)).ok_or(Error::NO_MEMORY)?
}

/// The expression with parentheses where it lacks them in this place, and nowhere else; those that it has stay. Where it is deeper with them
/// than files may be, the cause is [`Cause::NotWritten`](crate::Cause::NotWritten). What is refused is gone.
///
/// The place of the value of a constant and of an argument is [`FREE`](crate::tree::FREE); that of a whole statement and of the body of an arm
/// is [`STATEMENT`](crate::tree::STATEMENT). Which place each part of an expression has follows from the place of the whole, so the body of
/// a function is handed in at once, as an [`Expr::Block`] in `FREE`, which [`Expr::into_block`] opens again.
///
/// ```
/// use froesaffron::tree::*;
/// use froesaffron::{is_loose, parenthesize, unparse};
///
/// fn one<T>(item: T) -> Result<List<T>, NoMemory> {
///     let mut list = List::new(Global);
///     list.push(item).map_err(|_| NoMemory)?;
///     Ok(list)
/// }
///
/// fn path(name: &str) -> Result<Path, NoMemory> {
///     let word = Word { raw: false, text: Text::from_bytes(Global, name.as_bytes())? };
///     Ok(Path { start: PathStart::Local, segments: one((word, Args::None))? })
/// }
///
/// fn variable(name: &str) -> Result<Expr, NoMemory> {
///     Ok(Expr::Path { path: path(name)? })
/// }
///
/// fn binary(first: Expr, op: Op, second: Expr) -> Result<Expr, NoMemory> {
///     Ok(Expr::Chain { first: Boxed::new(Global, first)?, rest: one((op, Boxed::new(Global, second)?))? })
/// }
///
/// fn constant(name: &str, ty: &str, value: Expr) -> Result<File, NoMemory> {
///     let name = GivenName::Name(Name { raw: false, text: Text::from_bytes(Global, name.as_bytes())? });
///     let head = ValueHead::Const { name, ty: Ty::Path { path: path(ty)? } };
///     let kind = Boxed::new(Global, ItemKind::Value { head, value: Some(Boxed::new(Global, value)?) })?;
///     let item = Item { attrs: List::new(Global), vis: Vis::Inherited, kind };
///     Ok(File { shebang: None, attrs: List::new(Global), items: one(item)? })
/// }
///
/// let sum = binary(variable("a")?, Op::Add, variable("b")?)?;
/// let product = binary(sum, Op::Mul, variable("c")?)?;
/// assert!(is_loose(&product)?);
/// let file = constant("AREA", "u64", parenthesize(product, FREE)?)?;
/// assert_eq!(unparse(&file)?, "const AREA: u64 = (a + b) * c;\n");
/// # Ok::<(), Box<dyn std::error::Error>>(())
/// ```
///
/// A tree is walked down before it is counted: some ten thousand levels are too many, as they are for [`unparse`].
pub fn parenthesize(expr: Expr, place: Place) -> Result<Expr, Error> {
    with_stack(|| Ok(lay_paren::parenthesize(Global, expr, place)?)).ok_or(Error::NO_MEMORY)?
}

fn text_of(file: &File) -> Result<Vec<u8>, Error> {
    let mut kept = Kept(Vec::new());
    // Nothing but want of memory makes a write to `Kept` fail.
    match write_file(Global, file, &mut kept) {
        Ok(()) => Ok(kept.0),
        Err(_) => Err(Error::NO_MEMORY),
    }
}

/// The string of a text. The text of a source in UTF-8 is UTF-8, and no other source has one.
fn string(text: Vec<u8>) -> String {
    match String::from_utf8(text) {
        Ok(text) => text,
        Err(_) => unreachable!(),
    }
}

/// A sink that keeps what is written. It fails for want of memory alone.
struct Kept(Vec<u8>);

impl Sink for Kept {
    fn write(&mut self, piece: &[u8]) -> Result<(), Failed> {
        self.0.try_reserve(piece.len()).map_err(|_| Failed)?;
        self.0.extend_from_slice(piece);
        Ok(())
    }
}
