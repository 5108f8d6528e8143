//! Short words for calls that are to make something, and for the text of what was made.

use lay_build::{
    BuildError, BuiltBlock, BuiltExpr, BuiltItem, BuiltName, BuiltType, Op, block, expr_binary,
    expr_path, file, item_const, name, type_path,
};
use lay_front::unparse;
use lay_text::{List, NoMemory, Text};
use std::alloc::Global;
use std::process::Abort;

/// What a call makes.
pub(crate) fn made<T>(rt: &impl Abort, answer: Result<T, BuildError>) -> T {
    match answer {
        Ok(node) => node,
        Err(why) => panic!(rt; "{why:?}"),
    }
}

/// A list with one more item.
pub(crate) fn with<T: Drop>(rt: &impl Abort, list: List<T>, item: T) -> List<T> {
    let mut list = list;
    match list.push(item) {
        Ok(()) => list,
        Err(_) => panic!(rt; "no memory"),
    }
}

/// A list of one item.
pub(crate) fn only<T: Drop>(rt: &impl Abort, alloc: Global, item: T) -> List<T> {
    with(rt, List::new(alloc), item)
}

/// A name.
pub(crate) fn named(rt: &impl Abort, alloc: Global, text: &str) -> BuiltName {
    made(rt, name(alloc, text.as_bytes()))
}

/// A type that is a name.
pub(crate) fn type_of(rt: &impl Abort, alloc: Global, text: &str) -> BuiltType {
    let first = named(rt, alloc, text);
    made(
        rt,
        type_path(alloc, first, List::new(alloc), List::new(alloc)),
    )
}

/// A name as an expression.
pub(crate) fn path(rt: &impl Abort, alloc: Global, text: &str) -> BuiltExpr {
    let first = named(rt, alloc, text);
    made(rt, expr_path(alloc, first, List::new(alloc)))
}

/// `+` between two expressions.
pub(crate) fn sum(rt: &impl Abort, alloc: Global, left: BuiltExpr, right: BuiltExpr) -> BuiltExpr {
    made(rt, expr_binary(alloc, Op::Add, left, right))
}

/// A block of an expression.
pub(crate) fn body(rt: &impl Abort, alloc: Global, tail: BuiltExpr) -> BuiltBlock {
    made(rt, block(alloc, List::new(alloc), Some(tail)))
}

/// A block that holds nothing.
pub(crate) fn nothing(rt: &impl Abort, alloc: Global) -> BuiltBlock {
    made(rt, block(alloc, List::new(alloc), None))
}

/// The text of a file of an item, or nothing for want of memory.
pub(crate) fn printed(rt: &impl Abort, alloc: Global, item: BuiltItem) -> Option<Text> {
    match file(alloc, only(rt, alloc, item)) {
        Ok(file) => unparse(alloc, &file).ok(),
        Err(NoMemory) => None,
    }
}

/// Whether this is the text of a file of an item.
pub(crate) fn is_printed(rt: &impl Abort, alloc: Global, item: BuiltItem, wanted: &str) -> bool {
    match printed(rt, alloc, item) {
        Some(text) => text.as_bytes() == wanted.as_bytes(),
        None => false,
    }
}

/// Whether an expression is written so where it is the value of a constant.
pub(crate) fn is_value(rt: &impl Abort, alloc: Global, value: BuiltExpr, wanted: &str) -> bool {
    let name = named(rt, alloc, "A");
    let ty = type_of(rt, alloc, "B");
    let item = made(rt, item_const(alloc, false, name, ty, value));
    match printed(rt, alloc, item) {
        Some(text) => is_constant(text.as_bytes(), wanted.as_bytes()),
        None => false,
    }
}

/// Whether the text is that of the constant with this value.
fn is_constant(text: &[u8], wanted: &[u8]) -> bool {
    match text.strip_prefix(b"const A: B = ".as_slice()) {
        Some(value) => value.strip_suffix(b";\n".as_slice()) == Some(wanted),
        None => false,
    }
}
