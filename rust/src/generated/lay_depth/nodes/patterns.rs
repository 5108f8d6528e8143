//! Made by scripts/rust.sh from crates/lay_depth/src/nodes/patterns.rt, which is proved: change that.
//!
//! The depth of patterns.
use crate::generated::lay_depth::nodes::levels::deeper;
use crate::generated::lay_depth::nodes::types::path_depth;
use crate::generated::lay_node::{FieldPat, Pat, SpanEnd};
/// The depth of a pattern.
pub fn pat_depth(pat: &Pat) -> u32 {
    match pat {
        Pat::Value { .. } | Pat::Wild | Pat::Rest | Pat::Call { .. } => 1,
        Pat::Bind { of, .. } => {
            match of {
                Some(pat) => deeper(pat_depth(pat.get())),
                None => 1,
            }
        }
        Pat::Or { alternatives } => deeper(pats_depth(alternatives.as_slice())),
        Pat::Path { path } => deeper(path_depth(path)),
        Pat::Span { start, end, .. } => {
            deeper(end_depth(start.get()).max(end_depth(end.get())))
        }
        Pat::Ref { inner, .. } | Pat::Paren { inner } => deeper(pat_depth(inner.get())),
        Pat::Struct { path, fields, .. } => {
            deeper(path_depth(path).max(fields_depth(fields.as_slice())))
        }
        Pat::TupleStruct { path, elements } => {
            deeper(path_depth(path).max(pats_depth(elements.as_slice())))
        }
        Pat::Tuple { elements } | Pat::Slice { elements } => {
            deeper(pats_depth(elements.as_slice()))
        }
    }
}
/// The greatest depth of the patterns.
fn pats_depth(pats: &[Pat]) -> u32 {
    let mut most = 0u32;
    for pat in pats {
        most = most.max(pat_depth(pat));
    }
    most
}
/// The greatest depth of the fields of a struct pattern.
fn fields_depth(fields: &[FieldPat]) -> u32 {
    let mut most = 0u32;
    for field in fields {
        most = most.max(field_depth(field));
    }
    most
}
/// The depth of a field of a struct pattern.
fn field_depth(field: &FieldPat) -> u32 {
    match field {
        FieldPat::Named { pat, .. } | FieldPat::Index { pat, .. }
        | FieldPat::Short { pat, .. } => pat_depth(pat),
    }
}
/// The depth of an end of a range pattern; 0 if there is none.
fn end_depth(end: &Option<SpanEnd>) -> u32 {
    match end {
        Some(end) => {
            match end {
                SpanEnd::Path(path) => path_depth(path),
                SpanEnd::Value(_) => 0,
            }
        }
        None => 0,
    }
}
