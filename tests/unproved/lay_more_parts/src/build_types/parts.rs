//! Short words for calls that are to make something.
ghost use Rattle.std.specs.Prelude.{◌≡◌, IfSome};
ghost use Rattle.lay_layout.specs.Machine.{opened};

use lay_build_types::{BuildError, BuiltName, BuiltType, name, type_path};
use lay_node::Ty;
use lay_out_types::put_type;
use lay_stream::{Stream, plain};
use lay_text::{List, Text};
use std::alloc::Global;
use std::process::Abort;

/// What a call makes.
pub(crate) fn made<T>(rt: &impl Abort, answer: Result<T, BuildError>) -> T {
    match answer {
        Ok(node) => node,
        Err(why) => panic!(rt; "{why:?}"),
    }
}

/// A list with one more item.
pub(crate) fn with<T: Drop>(rt: &impl Abort, list: List<T>, item: T) -> List<T> {
    let mut list = list;
    match list.push(item) {
        Ok(()) => list,
        Err(_) => panic!(rt; "no memory"),
    }
}

/// A list of one item.
pub(crate) fn only<T: Drop>(rt: &impl Abort, alloc: Global, item: T) -> List<T> {
    with(rt, List::new(alloc), item)
}

/// A name.
pub(crate) fn named(rt: &impl Abort, alloc: Global, text: &str) -> BuiltName {
    made(rt, name(alloc, text.as_bytes()))
}

/// A type that is a name.
pub(crate) fn type_of(rt: &impl Abort, alloc: Global, text: &str) -> BuiltType {
    made(
        rt,
        type_path(
            alloc,
            named(rt, alloc, text),
            List::new(alloc),
            List::new(alloc),
        ),
    )
}

/// How a type is written, or nothing for want of memory.
pub(crate) fn printed(alloc: Global, ty: &Ty) -> Option<Text> {
    let stream = laid_out(alloc, ty)?;
    plain(alloc, &stream).ok()
}

/// The layout of a type.
fn laid_out(alloc: Global, ty: &Ty) -> Option<Stream>
    ensures { IfSome result (λ stream. opened stream 0 ≡ 0) }
{
    let mut stream = Stream::new(alloc);
    match put_type(&mut stream, ty) {
        Ok(()) => Some(stream),
        Err(_) => None,
    }
}

/// Whether a type is written so.
pub(crate) fn is_printed(alloc: Global, ty: &Ty, text: &str) -> bool {
    match printed(alloc, ty) {
        Some(printed) => printed.as_bytes() == text.as_bytes(),
        None => false,
    }
}
