//! Made by scripts/rust.sh from crates/lay_same_nodes/src/patterns.rt, which is proved: change that.
//!
//! Equality of patterns.
use crate::generated::lay_same_nodes::lists::Same;
use crate::generated::lay_node::{Boxed, FieldPat, Pat, PatValue, SpanEnd};
impl Same for PatValue {
    fn same(&self, other: &PatValue) -> bool {
        self.negative == other.negative && self.literal.same(&other.literal)
    }
}
impl Same for SpanEnd {
    fn same(&self, other: &SpanEnd) -> bool {
        match self {
            SpanEnd::Value(value) => matches!(
                other, SpanEnd::Value(given) if value.same(given)
            ),
            SpanEnd::Path(path) => matches!(
                other, SpanEnd::Path(given) if path.same(given)
            ),
        }
    }
}
impl Same for Pat {
    fn same(&self, other: &Pat) -> bool {
        match self {
            Pat::Or { alternatives } => {
                match other {
                    Pat::Or { alternatives: given } => {
                        same_patterns(alternatives.as_slice(), given.as_slice())
                    }
                    _ => false,
                }
            }
            Pat::Value { value } => {
                matches!(other, Pat::Value { value: given } if value.same(given))
            }
            Pat::Wild => matches!(other, Pat::Wild),
            Pat::Rest => matches!(other, Pat::Rest),
            Pat::Call { call } => matches!(
                other, Pat::Call { call: given } if call.same(given)
            ),
            Pat::Path { path } => matches!(
                other, Pat::Path { path: given } if path.same(given)
            ),
            Pat::Bind { by_ref, mutable, name, of } => {
                match other {
                    Pat::Bind {
                        by_ref: other_by_ref,
                        mutable: other_mutable,
                        name: other_name,
                        of: other_of,
                    } => {
                        *by_ref == *other_by_ref && *mutable == *other_mutable
                            && name.same(other_name) && same_bound(of, other_of)
                    }
                    _ => false,
                }
            }
            Pat::Span { start, inclusive, end } => {
                match other {
                    Pat::Span {
                        start: other_start,
                        inclusive: other_inclusive,
                        end: other_end,
                    } => {
                        start.same(other_start) && *inclusive == *other_inclusive
                            && end.same(other_end)
                    }
                    _ => false,
                }
            }
            Pat::Ref { mutable, inner } => {
                match other {
                    Pat::Ref { mutable: other_mutable, inner: other_inner } => {
                        *mutable == *other_mutable && inner.get().same(other_inner.get())
                    }
                    _ => false,
                }
            }
            Pat::Struct { path, fields, rest } => {
                match other {
                    Pat::Struct {
                        path: other_path,
                        fields: other_fields,
                        rest: other_rest,
                    } => {
                        path.same(other_path)
                            && same_fields(fields.as_slice(), other_fields.as_slice())
                            && *rest == *other_rest
                    }
                    _ => false,
                }
            }
            Pat::TupleStruct { path, elements } => {
                match other {
                    Pat::TupleStruct { path: other_path, elements: other_elements } => {
                        path.same(other_path)
                            && same_patterns(
                                elements.as_slice(),
                                other_elements.as_slice(),
                            )
                    }
                    _ => false,
                }
            }
            Pat::Tuple { elements } => {
                match other {
                    Pat::Tuple { elements: given } => {
                        same_patterns(elements.as_slice(), given.as_slice())
                    }
                    _ => false,
                }
            }
            Pat::Paren { inner } => {
                matches!(
                    other, Pat::Paren { inner: given } if inner.get().same(given.get())
                )
            }
            Pat::Slice { elements } => {
                match other {
                    Pat::Slice { elements: given } => {
                        same_patterns(elements.as_slice(), given.as_slice())
                    }
                    _ => false,
                }
            }
        }
    }
}
impl Same for FieldPat {
    fn same(&self, other: &FieldPat) -> bool {
        match self {
            FieldPat::Named { attrs, name, pat } => {
                match other {
                    FieldPat::Named {
                        attrs: other_attrs,
                        name: other_name,
                        pat: other_pat,
                    } => {
                        attrs.same(other_attrs) && name.same(other_name)
                            && pat.same(other_pat)
                    }
                    _ => false,
                }
            }
            FieldPat::Index { attrs, index, pat } => {
                match other {
                    FieldPat::Index {
                        attrs: other_attrs,
                        index: other_index,
                        pat: other_pat,
                    } => {
                        attrs.same(other_attrs) && index.same(other_index)
                            && pat.same(other_pat)
                    }
                    _ => false,
                }
            }
            FieldPat::Short { attrs, pat } => {
                match other {
                    FieldPat::Short { attrs: other_attrs, pat: other_pat } => {
                        attrs.same(other_attrs) && pat.same(other_pat)
                    }
                    _ => false,
                }
            }
        }
    }
}
/// Whether two slices of patterns are equal.
fn same_patterns(elements: &[Pat], others: &[Pat]) -> bool {
    if elements.len() != others.len() {
        return false;
    }
    for (element, other) in elements.iter().zip(others) {
        if !element.same(other) {
            return false;
        }
    }
    true
}
/// Whether the fields of two patterns are equal.
fn same_fields(fields: &[FieldPat], others: &[FieldPat]) -> bool {
    if fields.len() != others.len() {
        return false;
    }
    for (field, other) in fields.iter().zip(others) {
        if !field.same(other) {
            return false;
        }
    }
    true
}
/// Whether the patterns after the `@` of two bindings are equal.
fn same_bound(pattern: &Option<Boxed<Pat>>, other: &Option<Boxed<Pat>>) -> bool {
    match pattern {
        None => other.is_none(),
        Some(pattern) => matches!(other, Some(given) if pattern.get().same(given.get())),
    }
}
