//! Files in which an expression has a place of its own.
use crate::shapes::{boxed, expr, with_part};
use lay_code::{Expr, Place, Start};
use lay_files::{read_bytes, text_of};
use lay_laws::is_written;
use lay_ops::places::{FREE, STATEMENT};
use lay_token::Text;
use lay_tree::{File, ItemKind};
use std::alloc::Global;

/// A place, and the expression in which `p` stands at that place.
pub const PLACES: [(Place, &str); 6] = [
    (FREE, "p"),
    (STATEMENT, "{p;}"),
    (
        Place {
            level: 0,
            no_struct: true,
            start: Start::No,
            op_after: false,
            lt_after: false,
        },
        "match p{}",
    ),
    (
        Place {
            level: 4,
            no_struct: true,
            start: Start::No,
            op_after: false,
            lt_after: false,
        },
        "while let b=p{}",
    ),
    (
        Place {
            level: 5,
            no_struct: false,
            start: Start::Part,
            op_after: true,
            lt_after: true,
        },
        "{p<a;}",
    ),
    (
        Place {
            level: 9,
            no_struct: false,
            start: Start::No,
            op_after: false,
            lt_after: false,
        },
        "a<<p",
    ),
];

/// The file of one constant that holds this expression.
pub fn file_of(alloc: Global, value: Expr) -> Option<File> {
    let mut file = read_bytes(alloc, b"const A:B=p;").ok()?;
    let value = boxed(alloc, value)?;
    match file.items.as_mut_slice() {
        [item] => match item.kind.get_mut() {
            ItemKind::Value { value: there, .. } => *there = Some(value),
            _ => return None,
        },
        _ => return None,
    }
    Some(file)
}

/// The file in which an expression stands in this one.
pub fn placed(alloc: Global, around: &str, value: Expr) -> Option<File> {
    if around == "p" {
        return file_of(alloc, value);
    }
    file_of(alloc, with_part(expr(alloc, around)?, b"p", value)?)
}

/// Whether the file can be written.
pub fn written(alloc: Global, file: &File) -> Option<bool> {
    is_written(alloc, file).ok()
}

/// The text of a file, whether it reads back or not.
pub fn text(alloc: Global, file: &File) -> Option<Text> {
    text_of(alloc, file).ok()
}
